//! An element and the engine's row for it are the same words, so that lists of them cross without being copied. Here alone memory of one
//! type is looked at as another.
#![allow(unsafe_code)]

use crate::{geom::Vert, parity::Parity};
use std::{
    mem::{align_of, offset_of, size_of, ManuallyDrop},
    slice,
};

/// An element of a geometry: its corners and its parity.
pub(crate) type Element<const N: usize> = ([Vert; N], Parity);

/// A row while it is lent, when any word may stand in any place: N corners, then the parity.
pub(crate) type Row<const N: usize> = ([u32; N], u32);

/// The words of a row. Tuples have no promised layout, so it is asserted when the crate is compiled: in an element as in a row the corners
/// come first and the parity last, with no gap.
const fn words<const N: usize>() -> usize {
    assert!(size_of::<Row<N>>() == 4 * (N + 1) && size_of::<Element<N>>() == 4 * (N + 1));
    assert!(align_of::<Row<N>>() == 4 && align_of::<Element<N>>() == 4);
    assert!(offset_of!(Row<N>, 0) == 0 && offset_of!(Element<N>, 0) == 0);
    assert!(offset_of!(Row<N>, 1) == 4 * N && offset_of!(Element<N>, 1) == 4 * N);
    N + 1
}

/// So many rows of zeros. Fresh memory is zeros already: what is not used of it is not touched.
pub(crate) fn zeroed<const N: usize>(rows: usize) -> Vec<Row<N>> {
    vec![([0; N], 0); rows]
}

/// The words of rows, to be written.
pub(crate) fn lent<const N: usize>(rows: &mut [Row<N>]) -> &mut [u32] {
    let length = const { words::<N>() } * rows.len();
    // SAFETY: the rows are so many words with no gap, borrowed for as long; whatever is written into them is a row again.
    unsafe { slice::from_raw_parts_mut(rows.as_mut_ptr().cast(), length) }
}

/// The words of elements, to be read.
pub(crate) fn shared<const N: usize>(elements: &[Element<N>]) -> &[u32] {
    let length = const { words::<N>() } * elements.len();
    // SAFETY: the elements are so many words with no gap, borrowed for as long.
    unsafe { slice::from_raw_parts(elements.as_ptr().cast(), length) }
}

/// The numbers of vertices, to be read.
pub(crate) fn numbers(verts: &[Vert]) -> &[u32] {
    // SAFETY: a vertex is its number and nothing else (`repr(transparent)`); they are borrowed for as long.
    unsafe { slice::from_raw_parts(verts.as_ptr().cast(), verts.len()) }
}

/// The first entries; the memory of the others is given back.
pub(crate) fn cut<T>(mut list: Vec<T>, count: usize) -> Vec<T> {
    list.truncate(count);
    list.shrink_to_fit();
    list
}

/// The first rows as elements, where they stand.
///
/// # Safety
/// The last word of each of these rows is 0 or 1.
pub(crate) unsafe fn elements<const N: usize>(rows: Vec<Row<N>>, count: usize) -> Vec<Element<N>> {
    const { words::<N>() };
    // Past these rows any word may stand: they are cut off before a word is taken for a parity.
    let mut rows = ManuallyDrop::new(cut(rows, count));
    debug_assert!(rows.iter().all(|(_, parity)| *parity <= 1));
    let (length, capacity) = (rows.len(), rows.capacity());
    // SAFETY: the list is taken over with its length and its capacity, and an element has the size and the alignment of a row. A corner
    // may be any word, and a parity is 0, even, or 1, odd, as the caller promises.
    unsafe { Vec::from_raw_parts(rows.as_mut_ptr().cast(), length, capacity) }
}

#[cfg(test)]
mod tests {
    use super::*;
    use Parity::{Even, Odd};

    #[test]
    fn corners_then_parity() {
        let list = [
            ([Vert(7), Vert(8), Vert(9)], Odd),
            ([Vert(1), Vert(2), Vert(3)], Even),
        ];
        assert_eq!(shared(&list), [7, 8, 9, 1, 1, 2, 3, 0]);
        assert_eq!(numbers(&list[0].0), [7, 8, 9]);
        let mut rows = zeroed(2);
        lent(&mut rows).copy_from_slice(&[7, 8, 9, 1, 1, 2, 3, 0]);
        assert_eq!(rows, [([7, 8, 9], 1), ([1, 2, 3], 0)]);
        // SAFETY: the parities are 1 and 0.
        assert_eq!(unsafe { elements(rows, 2) }, list);
    }

    /// Past the list's end words stand that are no parities.
    #[test]
    fn rows_that_are_cut_off() {
        for count in 0..4 {
            let mut rows = zeroed::<8>(9);
            lent(&mut rows)[9 * count..].fill(u32::MAX);
            // SAFETY: the first rows are zeros.
            let mut list = unsafe { elements(rows, count) };
            assert_eq!(list, vec![([Vert(0); 8], Even); count]);
            list.push(([Vert(5); 8], Odd));
            assert_eq!(list.len(), count + 1);
        }
    }

    #[test]
    fn no_rows() {
        assert_eq!(shared::<2>(&[]), []);
        assert_eq!(numbers(&[]), []);
        let mut rows = zeroed::<4>(0);
        assert_eq!(lent(&mut rows), []);
        // SAFETY: there are none.
        assert_eq!(unsafe { elements(rows, 0) }, []);
    }
}

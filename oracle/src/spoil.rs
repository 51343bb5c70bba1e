//! What can be wrong with a file's bytes, each with the refusal that is due for it by the way it is made.
use crate::written::{places, Edit, Field, Place, Written};
use reference::{
    mesh::{Sizes, LIMIT},
    random::Rng,
};

/// Every thing that can be wrong, in words.
pub const SPOILS: [&str; 14] = [
    "another version",
    "no kind",
    "the other kind",
    "a count beyond the cells or the limit",
    "another count within the cells",
    "flags above 15",
    "a parity above 1",
    "a coordinate beyond 1,024 or no number",
    "a number beyond the count",
    "a curve without vertices",
    "a curve beyond the cells of curve vertices",
    "any byte",
    "cut short",
    "bytes left over",
];

/// All of them, and others.
pub const fn and<const N: usize>(others: &[&'static str]) -> [&'static str; N] {
    let mut things = [""; N];
    let mut i = 0;
    while i < N {
        things[i] = if i < SPOILS.len() {
            SPOILS[i]
        } else {
            others[i - SPOILS.len()]
        };
        i += 1;
    }
    things
}

/// The refusal that is due at a field; none where it may be any, or none at all.
#[derive(Copy, Clone, Debug)]
pub struct Due {
    pub place: Place,
    pub number: Option<u8>,
}

/// Of all that is wrong with a file, what is met first: field by field. A field that is cut is not judged; else its last bytes count.
pub fn first_due(dues: &[Due]) -> Option<Due> {
    let order = |due: &&Due| (due.place.at, due.number != Some(3));
    dues.iter().rev().min_by_key(order).copied()
}

/// Too few cells are lent for the mesh's own file: 10 at the count, or at the length of the last curve.
pub fn short_of(written: &Written, cells: &Sizes) -> Option<Due> {
    let sizes = written.mesh.sizes().list();
    let list = (0..7).find(|list| cells.list()[*list] < sizes[*list])?;
    let field = match list {
        6 => Field::Length,
        _ => Field::Count(list),
    };
    let place = |place: &Place| place.field == field;
    Some(Due {
        place: places(&written.mesh).into_iter().rfind(place)?,
        number: Some(10),
    })
}

/// Does one of them to a file that has a place for it, with so many cells lent: what is due for it.
pub fn spoil(rng: &mut Rng, written: &mut Written, cells: &Sizes, which: usize) -> Option<Due> {
    let place = one_place(rng, written, which)?;
    // Of a field of no bytes there is none.
    let inside = place.at + rng.below(place.length.max(1));
    let (number, edit) = match which {
        11 => (None, Edit::Put(inside, vec![rng.draw() as u8])),
        12 => (Some(3), Edit::Cut(inside)),
        13 => {
            let more = (0..=rng.below(5)).map(|_| rng.draw() as u8);
            (Some(4), Edit::More(more.collect()))
        }
        _ => {
            let (number, bytes) = another(rng, written, cells, place, which)?;
            (number, Edit::Put(place.at, bytes))
        }
    };
    written.edits.push(edit);
    Some(Due { place, number })
}

/// Other bytes for a field, and the refusal that is due for them.
fn another(
    rng: &mut Rng,
    written: &Written,
    cells: &Sizes,
    place: Place,
    which: usize,
) -> Option<(Option<u8>, Vec<u8>)> {
    let byte = |rng: &mut Rng, bytes: &[u8]| vec![rng.pick(bytes)];
    let word = |rng: &mut Rng, words: &[u32]| rng.pick(words).to_be_bytes().to_vec();
    let found = match which {
        0 => (Some(1), byte(rng, &[0, 2, 3, 128, 255])),
        1 => (Some(2), byte(rng, &[2, 3, 128, 255])),
        2 => (None, vec![1 - written.mesh.kind.byte()]),
        3 | 4 => count(rng, place.field, cells, which)?,
        5 => (Some(5), byte(rng, &[16, 17, 31, 128, 240, 255])),
        6 => (Some(5), byte(rng, &[2, 3, 128, 255])),
        7 => (Some(6), word(rng, &COORDINATES)),
        8 => {
            let count = written.mesh.verts.len() as u32;
            let numbers = [count, count + 1, count | 1 << 24, 1 << 31, u32::MAX];
            (Some(7), word(rng, &numbers))
        }
        9 => (Some(8), vec![0; 4]),
        10 => (Some(10), word(rng, &too_long(written, cells, place))),
        _ => return None,
    };
    Some(found)
}

const COORDINATES: [u32; 10] = [
    0x4480_0001, // the next binary32 above 1,024
    0xC480_0001,
    0x4500_0000,
    0x7F7F_FFFF, // the largest number
    0x7F80_0000, // infinities
    0xFF80_0000,
    0x7FC0_0000, // NaN
    0x7F80_0001,
    0xFF80_0001,
    0xFFFF_FFFF,
];

/// A field that the thing can be done to: each that a file may have as often as any other, where this one has it.
fn one_place(rng: &mut Rng, written: &Written, which: usize) -> Option<Place> {
    let fits = |field: Field| match which {
        0 => field == Field::Version,
        1 | 2 => field == Field::Kind,
        3 | 4 => matches!(field, Field::Count(_)),
        5 => field == Field::Flags,
        6 => matches!(field, Field::Parity(_) | Field::Step),
        7 => matches!(field, Field::Coordinate(_)),
        8 => matches!(field, Field::Point | Field::Corner(_) | Field::CurveVertex),
        9 | 10 => field == Field::Length,
        11 | 12 => field != Field::End,
        _ => field == Field::End,
    };
    let all: Vec<Place> = places(&written.mesh)
        .into_iter()
        .filter(|place| fits(place.field))
        .collect();
    let mut fields: Vec<Field> = vec![];
    for place in &all {
        if !fields.contains(&place.field) {
            fields.push(place.field);
        }
    }
    let field = (!fields.is_empty()).then(|| rng.pick(&fields))?;
    let same: Vec<Place> = all.into_iter().filter(|p| p.field == field).collect();
    Some(rng.pick(&same))
}

/// A count that is refused, or one that isn't.
fn count(
    rng: &mut Rng,
    field: Field,
    cells: &Sizes,
    which: usize,
) -> Option<(Option<u8>, Vec<u8>)> {
    let Field::Count(list) = field else {
        return None;
    };
    let lent = cells.list()[list];
    let (number, count) = match which {
        3 => {
            let beyond = [lent + 1, LIMIT, LIMIT + 1, 1 << 31, u32::MAX as usize];
            (Some(10), rng.pick(&beyond).max(lent + 1))
        }
        _ => (None, rng.below(lent + 1)),
    };
    Some((number, (count as u32).to_be_bytes().to_vec()))
}

/// Lengths of the curve at a place for which no cells are left; with the second last the total over all curves so far is 2 to the power
/// of 32.
fn too_long(written: &Written, cells: &Sizes, place: Place) -> [u32; 4] {
    let lengths = places(&written.mesh)
        .into_iter()
        .filter(|p| p.field == Field::Length && p.at < place.at);
    let curves = written.mesh.curves.iter().take(lengths.count());
    let before: usize = curves.map(|c| c.verts.len()).sum();
    let beyond = (cells.curve_verts + 1).saturating_sub(before).max(1) as u32;
    let wraps = (before as u32).wrapping_neg();
    [beyond, LIMIT as u32 + 1, wraps.max(beyond), u32::MAX]
}

//! How much memory is lent to a refinement: enough at once, so that 10 comes from the limit alone and no work is done twice.
//!
//! Cut m = 2^depth times along each side, one element has so many pieces and so many places in its grid, and every midpoint that its
//! pieces ask for is one of those places. Elements that share midpoints need less. Fresh memory that is lent and not used is not touched, so it
//! costs addresses alone; memory that the allocator hands out again costs its zeroing.
use crate::{
    raw::{self, Desk, Sizes, Told},
    LIMIT,
};

/// What the two kinds differ in, beside the corners of an area, A, and of a volume, V.
pub(crate) struct Kind<const A: usize, const V: usize> {
    /// Its number in a file.
    pub number: usize,
    pub subdivide: fn(Desk, &Sizes, u8, u8) -> Told<8>,
    /// The places of an area's grid and of a volume's, m pieces along each side.
    places: [fn(u64) -> u64; 2],
}

pub(crate) const CUBES: Kind<4, 8> = Kind {
    number: 0,
    subdivide: raw::subdivide_cubes,
    places: [|m| (m + 1).pow(2), |m| (m + 1).pow(3)],
};

pub(crate) const SIMPLICES: Kind<3, 4> = Kind {
    number: 1,
    subdivide: raw::subdivide_simplices,
    places: [
        |m| (m + 1) * (m + 2) / 2,
        |m| (m + 1) * (m + 2) * (m + 3) / 6,
    ],
};

/// The cells of each list and of the book: no mesh of these sizes needs more, the limit aside.
pub(crate) fn needs<const A: usize, const V: usize>(
    kind: &Kind<A, V>,
    sizes: &Sizes,
    depth: u8,
) -> (Sizes, usize) {
    // From 21 on, whatever grows grows beyond the limit of 2^20.
    let m = 1 << depth.min(21);
    let [verts, points, lines, areas, volumes, curves, steps] = sizes.map(|size| size as u64);
    let strides = steps.saturating_sub(curves);
    let made = [
        (lines, m - 1),
        (areas, (kind.places[0])(m) - (kind.places[0])(1)),
        (volumes, (kind.places[1])(m) - (kind.places[1])(1)),
        (strides, m - 1),
    ]
    .into_iter()
    .map(|(count, each)| count.saturating_mul(each))
    .fold(0, u64::saturating_add);
    let most = [
        verts.saturating_add(made),
        points,
        lines.saturating_mul(m),
        areas.saturating_mul(m.pow(2)),
        volumes.saturating_mul(m.pow(3)),
        curves,
        curves.saturating_add(strides.saturating_mul(m)),
    ];
    // A list handed in that is over the limit is lent its own length, and then refused by 10.
    let cells = std::array::from_fn(|list| sizes[list].max(limited(most[list])));
    (cells, limited(made))
}

fn limited(cells: u64) -> usize {
    cells.min(LIMIT as u64) as usize
}

#[cfg(test)]
mod tests {
    use super::*;

    /// Counted by hand: a cube's grid of 3·3·3 places has 8 corners, a tetrahedron's of 10 has 4.
    #[test]
    fn one_volume_and_one_pass() {
        let one = [8, 0, 0, 0, 1, 0, 0];
        assert_eq!(needs(&CUBES, &one, 1), ([27, 0, 0, 0, 8, 0, 0], 19));
        assert_eq!(needs(&SIMPLICES, &one, 1), ([14, 0, 0, 0, 8, 0, 0], 6));
    }

    /// Lines, areas and curves: 4 pieces along each side after two passes.
    #[test]
    fn flat_lists_and_two_passes() {
        let sizes = [9, 2, 1, 1, 0, 2, 5];
        let made = 3 + (25 - 4) + 3 * 3;
        let cells = [9 + made, 2, 4, 16, 0, 2, 2 + 3 * 4];
        assert_eq!(needs(&CUBES, &sizes, 2), (cells, made));
    }

    /// The limit bounds what is lent, but never below what is handed in.
    fn limited_to<const A: usize, const V: usize>(kind: &Kind<A, V>) {
        let (cells, book) = needs(kind, &[1, 1, 1, 1, 1, 1, 2], 255);
        assert_eq!(cells, [LIMIT, 1, LIMIT, LIMIT, LIMIT, 1, LIMIT]);
        assert_eq!(book, LIMIT);
        let over = [LIMIT + 7; 7];
        assert_eq!(needs(kind, &over, 255).0, over);
        assert_eq!(needs(kind, &over, 0), (over, 0));
    }

    #[test]
    fn the_limit() {
        limited_to(&CUBES);
        limited_to(&SIMPLICES);
    }
}

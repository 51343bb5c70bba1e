//! Document 01's tables through the geometries: P1 to P12, flags and time, the kept book, and the listing that the C example prints; and the
//! colour of a join, by document 02's U3.
mod common;

use aljumeste::{
    geom::{ElementData, Geometry, Vert},
    raw, CubicalGeometry, SimplicialGeometry, Vec4, VertData,
};
use common::{cubes, curve, listing, simplices, v, vertex, xy, Even, Odd};

#[test]
fn p1_depth_0_leaves_the_mesh() {
    let mut mesh = cubes(8);
    mesh.mk_point(v([3])[0]);
    mesh.mk_line(v([0, 0]), Odd);
    mesh.mk_area(v([0, 1, 2, 0]), Even);
    mesh.mk_volume(v([0, 0, 1, 1, 2, 2, 3, 3]), Even);
    mesh.curves.push(curve(&[1, 2], &[Odd]));
    let before = mesh.clone();
    assert_eq!(mesh.subdivide(true, 0), Ok(()));
    assert_eq!(mesh, before);
}

#[test]
fn p2_p3_a_line_of_one_point() {
    let mut mesh = cubes(1);
    mesh.mk_line(v([0, 0]), Even);
    mesh.subdivide(false, 1).unwrap();
    assert_eq!((mesh.verts.len(), mesh.lines.len()), (1, 0));

    let mut mesh = simplices(1);
    mesh.mk_line(v([0, 0]), Even);
    mesh.subdivide(false, 1).unwrap();
    assert_eq!(mesh.verts.len(), 2);
    assert_eq!(
        mesh.lines.into_raw(),
        [(v([0, 1]), Even), (v([1, 0]), Even)]
    );
}

#[test]
fn p4_p5_a_line_twice_and_its_reverse() {
    let mut mesh = simplices(2);
    mesh.mk_line(v([0, 1]), Even);
    mesh.mk_line(v([0, 1]), Even);
    mesh.subdivide(false, 1).unwrap();
    assert_eq!(
        mesh.lines.into_raw(),
        [(v([0, 2]), Even), (v([2, 1]), Even)]
    );

    let mut mesh = cubes(2);
    mesh.mk_line(v([0, 1]), Even);
    mesh.mk_line(v([1, 0]), Odd);
    mesh.subdivide(false, 1).unwrap();
    assert_eq!(mesh.verts.len(), 4);
    let halves = [([0, 2], Even), ([2, 1], Even), ([1, 3], Odd), ([3, 0], Odd)];
    assert_eq!(
        mesh.lines.into_raw(),
        halves.map(|(ends, parity)| (v(ends), parity))
    );
}

#[test]
fn p6_a_triangle() {
    let mut mesh = SimplicialGeometry::default();
    let [a, b, c] =
        [[0., 0.], [36., 0.], [0., 36.]].map(|[x, y]| mesh.mk_vert(vertex([x, y, 0., 0.])));
    mesh.mk_area([a, b, c], Even);
    mesh.subdivide(false, 1).unwrap();
    let positions: Vec<Vec4> = mesh.verts.values().map(|v| v.position).collect();
    let expected = [
        (6., 6.),
        (24., 6.),
        (6., 24.),
        (14., 8.),
        (8., 14.),
        (14., 14.),
    ];
    assert_eq!(positions, expected.map(|(x, y)| xy(x, y)));
    let pieces = [
        ([0, 3, 4], Even),
        ([3, 1, 5], Even),
        ([4, 5, 2], Even),
        ([3, 4, 5], Odd),
    ];
    assert_eq!(
        mesh.areas.into_raw(),
        pieces.map(|(corners, parity)| (v(corners), parity))
    );
}

#[test]
fn p7_p8_squares() {
    let mut mesh = cubes(4);
    mesh.mk_area(v([0, 1, 2, 3]), Odd);
    mesh.subdivide(false, 1).unwrap();
    let pieces = [[0, 5, 6, 4], [5, 1, 4, 7], [6, 4, 2, 8], [4, 7, 8, 3]];
    assert_eq!(
        mesh.areas.into_raw(),
        pieces.map(|corners| (v(corners), Odd))
    );

    let mut mesh = cubes(3);
    mesh.mk_area(v([0, 1, 2, 0]), Even);
    mesh.subdivide(false, 1).unwrap();
    assert_eq!((mesh.verts.len(), mesh.areas.len()), (3, 0));
}

#[test]
fn p9_a_flat_cube() {
    let mut mesh = cubes(4);
    mesh.mk_volume(v([0, 0, 1, 1, 2, 2, 3, 3]), Even);
    mesh.subdivide(false, 1).unwrap();
    assert_eq!((mesh.verts.len(), mesh.volumes.len()), (9, 0));
}

#[test]
fn p10_a_curve() {
    let mut mesh = simplices(3);
    mesh.verts[v([2])[0]].k = 201;
    mesh.curves.push(curve(&[0, 1, 2], &[Even, Odd]));
    mesh.subdivide(false, 1).unwrap();
    // The second key is [2,1]: the k are equal, and its vertex has the tag of vertex 2, the first end.
    assert_eq!(mesh.verts[v([4])[0]].generator, 102);
    assert_eq!(
        mesh.curves.into_raw(),
        [curve(&[0, 3, 1, 4, 2], &[Even, Even, Odd, Odd])]
    );
}

#[test]
fn p11_p12_roots() {
    assert_eq!(raw::root(2.0).to_bits(), 0x3fb5_04f3);
    assert_eq!(raw::root(f32::from_bits(1)).to_bits(), 0x1a35_04f3);
}

/// Flags hold an axis, and time moves with smooth_time alone.
#[test]
fn flags_and_time() {
    let ends = || {
        let mut mesh = SimplicialGeometry::default();
        let a = mesh.mk_vert(VertData {
            boundary: [true, false, false, false],
            ..vertex([0., 0., 0., 0.])
        });
        let b = mesh.mk_vert(vertex([8., 8., 0., 8.]));
        mesh.mk_line([a, b], Even);
        mesh
    };
    let (mut still, mut moved) = (ends(), ends());
    still.subdivide(false, 1).unwrap();
    moved.subdivide(true, 1).unwrap();
    let first = |mesh: &SimplicialGeometry| mesh.verts[v([0])[0]].position;
    assert_eq!(first(&still), Vec4::new(0., 2., 0., 0.));
    assert_eq!(first(&moved), Vec4::new(0., 2., 0., 2.));
}

/// Two vertices have tags 1 and 2 and these k, and lines.
fn joined<E: ElementData<Line = [Vert; 2]>>(
    mut mesh: Geometry<E>,
    ks: [u32; 2],
    lines: &[[usize; 2]],
) -> Geometry<E> {
    for (vert, (generator, k)) in mesh.verts.values_mut().zip([1, 2].into_iter().zip(ks)) {
        (vert.generator, vert.k) = (generator, k);
    }
    for line in lines {
        mesh.mk_line(v(*line), Even);
    }
    mesh
}

fn marks<E: ElementData>(mesh: &Geometry<E>) -> Vec<(u32, u32)> {
    let marks = |vert: &VertData| (vert.generator, vert.k);
    mesh.verts.values().map(marks).collect()
}

/// U3: "tag and k both come from the end with the smaller k, read as unsigned, the first end on a tie".
#[test]
fn the_colour_of_a_join() {
    for (depth, ks, lines, made) in [
        (1, [5, 3], &[[0, 1]][..], &[(2, 3)][..]),
        (1, [5, 3], &[[0, 1], [1, 0]], &[(2, 3), (2, 3)]),
        (1, [4, 4], &[[0, 1], [1, 0]], &[(1, 4), (2, 4)]),
        (1, [u32::MAX, 0], &[[0, 1]], &[(2, 0)]),
        (1, [0, u32::MAX], &[[0, 1]], &[(1, 0)]),
        (2, [5, 3], &[[0, 1]], &[(2, 3); 3]),
    ] {
        let expected = [&[(1, ks[0]), (2, ks[1])], made].concat();
        let mut cubes = joined(cubes(2), ks, lines);
        cubes.subdivide(false, depth).unwrap();
        assert_eq!(marks(&cubes), expected);
        let mut simplices = joined(simplices(2), ks, lines);
        simplices.subdivide(false, depth).unwrap();
        assert_eq!(marks(&simplices), expected);
    }
}

/// "a fresh book each pass (a cube with corners 0 = 3 and 2 = 7 meets an old pair again at depth 2)".
#[test]
fn the_book_is_kept_through_a_call() {
    let mut once = cubes(6);
    once.mk_volume(v([0, 1, 2, 0, 3, 4, 5, 2]), Even);
    let mut twice = once.clone();
    once.subdivide(false, 2).unwrap();
    twice.subdivide(false, 1).unwrap();
    twice.subdivide(false, 1).unwrap();
    assert!(once.verts.len() < twice.verts.len());
}

/// The C example's cube, through this crate: the same lines.
#[test]
fn the_listing_of_a_cube() {
    let mut mesh = CubicalGeometry::default();
    let corners = [0, 1, 2, 3, 4, 5, 6, 7].map(|i| {
        let along = |bit: usize| [0., 8.][i >> bit & 1];
        mesh.mk_vert(vertex([along(0), along(1), along(2), 0.]))
    });
    mesh.mk_point(corners[0]);
    mesh.mk_volume(corners, Even);
    mesh.curves.push(curve(&[0, 1, 3], &[Even, Even]));
    mesh.subdivide(false, 1).unwrap();
    assert_eq!(
        listing(1, &mesh),
        include_str!("../../examples/refine_cube.txt")
    );
}

//! What is refused, by which number and in which words, and what is left then.
mod common;

use aljumeste::{
    geom::{ElementData, Geometry, Vert},
    idx::Idx,
    CubicalGeometry, Parity, Refusal, SimplicialGeometry, VertData, LIMIT,
};
use common::{cubes, curve, simplices, v, vertex, Even, Odd};
use std::fmt::Debug;

fn unchanged<E>(after: &Geometry<E>, before: &Geometry<E>)
where
    E: ElementData<Point: Debug, Line: Debug, Area: Debug, Volume: Debug>,
{
    assert_eq!(after.points, before.points);
    assert_eq!(after.lines, before.lines);
    assert_eq!(after.areas, before.areas);
    assert_eq!(after.volumes, before.volumes);
    assert_eq!(after.curves, before.curves);
    // By their words: a NaN is not equal to itself.
    assert_eq!(format!("{:?}", after.verts), format!("{:?}", before.verts));
}

/// Everything that a geometry can be refused for answers this, and the geometry stays as it was.
fn refused(mesh: &SimplicialGeometry, refusal: Refusal) {
    for depth in [0, 2] {
        let mut refined = mesh.clone();
        assert_eq!(refined.subdivide(true, depth), Err(refusal));
        unchanged(&refined, mesh);
    }
    assert_eq!(mesh.compute_normals_3d().unwrap_err(), refusal);
    assert_eq!(mesh.compute_normals_4d().unwrap_err(), refusal);
    let square = |[a, b, c]: [Vert; 3]| [a, b, c, c];
    let cube = |[a, b, c, d]: [Vert; 4]| [a, b, c, d, d, c, b, a];
    refused_cubes(
        &CubicalGeometry {
            verts: mesh.verts.clone(),
            curves: mesh.curves.clone(),
            points: mesh.points.clone(),
            lines: mesh.lines.clone(),
            areas: mesh.areas.clone().map(|(c, parity)| (square(c), parity)),
            volumes: mesh.volumes.clone().map(|(c, parity)| (cube(c), parity)),
        },
        refusal,
    );
}

fn refused_cubes(mesh: &CubicalGeometry, refusal: Refusal) {
    assert_eq!(mesh.triangulated().unwrap_err(), refusal);
    for depth in [0, 1] {
        let mut refined = mesh.clone();
        assert_eq!(refined.subdivide(false, depth), Err(refusal));
        unchanged(&refined, mesh);
    }
}

#[test]
fn coordinates() {
    let next = f32::from_bits(1024f32.to_bits() + 1);
    for axis in 0..4 {
        for wrong in [next, -next, f32::INFINITY, f32::NAN] {
            let mut position = [1024., -1024., 0., 0.5];
            let mut mesh = simplices(2);
            mesh.mk_vert(vertex(position));
            assert_eq!(mesh.subdivide(true, 1), Ok(()));
            position[axis] = wrong;
            mesh.mk_vert(vertex(position));
            refused(&mesh, Refusal::Coordinate);
        }
    }
}

#[test]
fn vertex_numbers() {
    // The next, and one of more than 32 bits.
    for wrong in [4, 1 << 32] {
        let mut whole = simplices(4);
        whole.mk_point(v([3])[0]);
        whole.mk_line(v([0, 3]), Odd);
        whole.mk_area(v([0, 1, 3]), Odd);
        whole.mk_volume(v([0, 1, 2, 3]), Odd);
        let changes: [&dyn Fn(&mut SimplicialGeometry); 5] = [
            &|mesh| _ = mesh.mk_point(Vert::new(wrong)),
            &|mesh| _ = mesh.mk_line(v([0, wrong]), Even),
            &|mesh| _ = mesh.mk_area(v([0, 1, wrong]), Even),
            &|mesh| _ = mesh.mk_volume(v([0, 1, 2, wrong]), Even),
            &|mesh| _ = mesh.curves.push(curve(&[0, wrong], &[Odd])),
        ];
        for change in changes {
            let mut mesh = whole.clone();
            change(&mut mesh);
            refused(&mesh, Refusal::Vertex);
        }
    }
}

#[test]
fn curves() {
    let mut mesh = simplices(3);
    mesh.curves.push(curve(&[0], &[]));
    mesh.curves.push(curve(&[], &[]));
    refused(&mesh, Refusal::EmptyCurve);
    let wrong: [(&[usize], &[Parity]); 3] = [(&[0, 1], &[]), (&[], &[Even]), (&[0], &[Odd])];
    for (verts, parities) in wrong {
        let mut mesh = simplices(3);
        mesh.curves.push(curve(verts, parities));
        // 9 comes before all else.
        mesh.mk_vert(vertex([f32::NAN; 4]));
        mesh.mk_point(Vert::new(9));
        refused(&mesh, Refusal::Lists);
    }
}

/// 6 before 7 before 8.
#[test]
fn the_order_of_refusals() {
    let mut mesh = simplices(1);
    mesh.curves.push(curve(&[], &[]));
    refused(&mesh, Refusal::EmptyCurve);
    mesh.mk_point(Vert::new(9));
    refused(&mesh, Refusal::Vertex);
    mesh.mk_vert(vertex([2048., 0., 0., 0.]));
    refused(&mesh, Refusal::Coordinate);
}

/// A line's vertices are 2^n + 1 after n passes: the limit stops it after 19, and the mesh of 19 passes is left.
#[test]
fn the_limit_leaves_the_whole_passes() {
    let mut mesh = simplices(2);
    mesh.mk_line(v([0, 1]), Even);
    let mut whole = mesh.clone();
    assert_eq!(
        mesh.subdivide(false, 255),
        Err(Refusal::Full { passes: 19 })
    );
    assert_eq!(whole.subdivide(false, 19), Ok(()));
    assert_eq!((mesh.verts.len(), mesh.lines.len()), (524_289, 524_288));
    assert_eq!(mesh, whole);

    // No pass fits: nothing has changed.
    assert_eq!(mesh.subdivide(false, 1), Err(Refusal::Full { passes: 0 }));
    assert_eq!(mesh, whole);
}

/// One pass more would be over the limit: what is left stands on the first bench after an even number of passes, on the second after an
/// odd one, with every list in it.
#[test]
fn the_limit_after_even_and_odd_passes() {
    let mut simplicial = simplices(5);
    simplicial.mk_point(v([4])[0]);
    simplicial.mk_line(v([4, 0]), Odd);
    simplicial.mk_area(v([0, 1, 2]), Odd);
    simplicial.mk_volume(v([0, 1, 2, 3]), Odd);
    simplicial.curves.push(curve(&[0, 4, 1], &[Odd, Even]));
    let mut cubical = cubes(8);
    cubical.mk_point(v([7])[0]);
    cubical.mk_line(v([7, 0]), Odd);
    cubical.mk_area(v([0, 1, 2, 3]), Odd);
    cubical.mk_volume(v([0, 1, 2, 3, 4, 5, 6, 7]), Odd);
    cubical.curves.push(curve(&[0, 7, 1], &[Odd, Even]));
    for passes in [6, 5] {
        let (mut mesh, mut whole) = (simplicial.clone(), simplicial.clone());
        assert_eq!(mesh.subdivide(true, 255), Err(Refusal::Full { passes }));
        assert_eq!(whole.subdivide(true, passes), Ok(()));
        assert!(mesh == whole && mesh.volumes.len() == 1 << 18);

        let (mut mesh, mut whole) = (cubical.clone(), cubical.clone());
        assert_eq!(mesh.subdivide(true, 255), Err(Refusal::Full { passes }));
        assert_eq!(whole.subdivide(true, passes), Ok(()));
        assert!(mesh == whole && mesh.volumes.len() == 1 << 18);

        // One pass is done beforehand, so that one fewer fits.
        simplicial.subdivide(true, 1).unwrap();
        cubical.subdivide(true, 1).unwrap();
    }
}

/// Lists are lent up to the limit: 2^20 lines of one place, and 8^6 cubes, are reached.
#[test]
fn nothing_is_refused_below_the_limit() {
    let mut mesh = simplices(1);
    mesh.mk_line(v([0, 0]), Even);
    assert_eq!(mesh.subdivide(false, 20), Ok(()));
    assert_eq!((mesh.verts.len(), mesh.lines.len()), (LIMIT, LIMIT));

    let mut mesh = cubes(8);
    mesh.mk_volume(v([0, 1, 2, 3, 4, 5, 6, 7]), Even);
    assert_eq!(mesh.subdivide(false, 7), Err(Refusal::Full { passes: 6 }));
    assert_eq!(
        (mesh.verts.len(), mesh.volumes.len()),
        (65 * 65 * 65, 1 << 18)
    );
}

/// More than the limit is handed in: 10, whatever the depth, and nothing changes.
#[test]
fn lists_over_the_limit() {
    let mut mesh = simplices(1);
    mesh.points = std::iter::repeat_n(Vert::new(0), LIMIT).collect();
    assert_eq!(mesh.subdivide(true, 3), Ok(()));
    mesh.mk_point(Vert::new(0));
    refused(&mesh, Refusal::Full { passes: 0 });

    // Two triangles a square: over the limit afterwards.
    let mut mesh = cubes(4);
    mesh.areas = std::iter::repeat_n((v([0, 1, 2, 3]), Even), LIMIT / 2).collect();
    assert_eq!(mesh.triangulated().unwrap().areas.len(), LIMIT);
    mesh.mk_area(v([0, 1, 2, 3]), Odd);
    let refusal = mesh.triangulated().unwrap_err();
    assert_eq!(refusal, Refusal::Full { passes: 0 });
}

/// Corners that coincide anyhow, in every list: what is lent is enough.
#[test]
fn any_mesh_has_room() {
    let mut state = 1_u64;
    let mut draw = |below: usize| {
        state = state
            .wrapping_mul(6_364_136_223_846_793_005)
            .wrapping_add(1);
        (state >> 33) as usize % below
    };
    for _ in 0..500 {
        let n = 1 + draw(9);
        let (mut cubical, mut simplicial) = (cubes(n), simplices(n));
        for _ in 0..draw(5) {
            let parity = Parity::from(draw(2) == 0);
            let corner = |draw: &mut dyn FnMut(usize) -> usize| Vert::new(draw(n));
            let eight = [(); 8].map(|()| corner(&mut draw));
            let [a, b, c, d, ..] = eight;
            cubical.mk_volume(eight, parity);
            cubical.mk_area([a, b, c, d], parity);
            cubical.mk_line([a, b], parity);
            simplicial.mk_volume([a, b, c, d], parity);
            simplicial.mk_area([b, c, d], parity);
            simplicial.mk_line([c, d], parity);
            let strand = curve(&[d.index(), a.index(), b.index()], &[parity, parity.flip()]);
            cubical.curves.push(strand.clone());
            simplicial.curves.push(strand);
        }
        let depth = draw(4) as u8;
        assert_eq!(cubical.subdivide(true, depth), Ok(()));
        assert_eq!(simplicial.subdivide(true, depth), Ok(()));
    }
}

#[test]
fn numbers_and_sentences() {
    let all = [
        (1, Refusal::Version, "the file's version byte is not 1"),
        (2, Refusal::Kind, "the file's kind byte is neither 0 (cubes) nor 1 (simplices)"),
        (3, Refusal::EndsEarly, "the file ends early"),
        (4, Refusal::LeftOver, "the file has bytes left over"),
        (5, Refusal::Byte, "a flag byte is above 15, or a parity or smooth_time byte above 1"),
        (6, Refusal::Coordinate, "a coordinate is not a finite number from -1,024 to 1,024"),
        (7, Refusal::Vertex, "a vertex number is not below the vertex count"),
        (8, Refusal::EmptyCurve, "a curve is without vertices"),
        (9, Refusal::Lists, "lists don't fit together: a curve's parities are not one fewer than its vertices"),
        (10, Refusal::Full { passes: 0 }, "a list or the midpoint book would have more than 1,048,576 entries"),
        (10, Refusal::Full { passes: 2 }, "a list or the midpoint book would have more than 1,048,576 entries; the mesh after 2 whole passes is left"),
    ];
    for (number, refusal, sentence) in all {
        assert_eq!(refusal.number(), number);
        assert_eq!(
            refusal.to_string(),
            format!("refused by {number}: {sentence}")
        );
    }
}

/// Tag and k are carried, every bit of them. The k are equal, so that the first end gives both (document 02, U3).
#[test]
fn marks_are_carried() {
    let mut mesh = cubes(1);
    let marked = VertData {
        boundary: [true, false, true, false],
        generator: u32::MAX,
        k: u32::MAX,
        ..vertex([1., 2., 3., 4.])
    };
    let b = mesh.mk_vert(marked.clone());
    mesh.verts[Vert::new(0)].k = u32::MAX;
    mesh.mk_line([b, Vert::new(0)], Odd);
    mesh.subdivide(true, 1).unwrap();
    let VertData {
        generator,
        k,
        boundary,
        ..
    } = mesh.verts[Vert::new(2)];
    assert_eq!((generator, k, boundary), (u32::MAX, u32::MAX, [false; 4]));
    assert_eq!(mesh.verts[b].boundary, marked.boundary);
}

//! Where document 01, or document 02 after it, asks for another answer than the carried Rust gives, with the smallest input that
//! shows it. Everywhere else, on accepted meshes with enough space, tests/document.rs finds them equal.

mod common;

use std::panic::catch_unwind;

use common::{curve, even, positions, vertex, with_verts};
use reference::{
    geom::{CubicalGeometry, CurveData, SimplicialGeometry, Vert, VertData},
    idx::Idx,
    memory::{normals_3d, refine_within, subdivided, Ended, Handed, Normal},
    mesh::{Kind, Lent, Mesh},
    parity::Parity,
    random::{self, Bounds, Rng},
    Vec4,
};

fn one_vertex() -> SimplicialGeometry {
    let mut geom = SimplicialGeometry::default();
    geom.mk_vert(VertData {
        position: Vec4::zero(),
        boundary: [false; 4],
        generator: 0,
        k: 0,
    });
    geom
}

/// A join of two strands, line [0,1] with tags 1 and 2, k 5 and 3: the Rust gives its midpoint tag and k of the first end; here, by U3, of the
/// end with the smaller k. Where the k are equal, or the first is the smaller, both give the same.
#[test]
fn the_colour_of_a_join() {
    for (ks, there, here) in [
        ([5, 3], (1, 5), (2, 3)),
        ([u32::MAX, 0], (1, u32::MAX), (2, 0)),
        ([3, 5], (1, 3), (1, 3)),
        ([0, u32::MAX], (1, 0), (1, 0)),
        ([4, 4], (1, 4), (1, 4)),
    ] {
        for kind in [Kind::Cubes, Kind::Simplices] {
            let mut mesh = with_verts(kind, 2);
            for (i, k) in ks.into_iter().enumerate() {
                (mesh.verts[i].tag, mesh.verts[i].k) = (1 + i as u32, k);
            }
            mesh.lines = vec![even(&[0, 1])];
            let carried = subdivided(&mesh, 1, false);
            let refined = refine_within(&mesh, &Lent::enough(), 1, false).mesh;
            assert_eq!((carried.verts[2].tag, carried.verts[2].k), there);
            assert_eq!((refined.verts[2].tag, refined.verts[2].k), here);
        }
    }
}

/// A curve without vertices: the Rust panics at depth 1 and says nothing at depth 0; here 8 at any depth.
#[test]
fn a_curve_without_vertices() {
    let run = |depth| {
        catch_unwind(|| {
            let empty = CurveData {
                verts: vec![],
                parities: vec![],
                generator: 0,
            };
            let mut simplices = SimplicialGeometry::default();
            simplices.curves.push(empty.clone());
            simplices.subdivide(false, depth);
            let mut cubes = CubicalGeometry::default();
            cubes.curves.push(empty);
            cubes.subdivide(false, depth);
        })
        .is_ok()
    };
    assert!(run(0) && !run(1));

    let mut mesh = Mesh::empty(Kind::Simplices);
    mesh.curves = vec![curve(&[], &[])];
    mesh.curves[0].steps.clear();
    for depth in [0, 1] {
        let answer = Handed::lend(&mesh, &Lent::all(4)).subdivide(depth, 0);
        assert_eq!(answer.ended, Ended::Refused(8));
    }
}

/// A vertex number beyond the count: the Rust panics where it reads the vertex, and never reads a point's; here 7.
#[test]
fn a_vertex_number_beyond_the_count() {
    let line = catch_unwind(|| {
        let mut geom = one_vertex();
        geom.mk_line([Vert::new(0), Vert::new(1)], Parity::Even);
        geom.subdivide(false, 1);
    });
    let point = catch_unwind(|| {
        let mut geom = one_vertex();
        geom.mk_point(Vert::new(1));
        geom.subdivide(false, 1);
    });
    assert!(line.is_err() && point.is_ok());

    let mut mesh = with_verts(Kind::Simplices, 1);
    mesh.points = vec![1];
    assert_eq!(Handed::lend(&mesh, &Lent::all(4)).judge(0), Some(7));
}

/// A vertex on no triangle: the Rust's normal is NaN in every place; here Flat.
#[test]
fn a_normal_of_nothing() {
    let n = one_vertex().compute_normals_3d()[Vert::new(0)];
    assert!(n.x.is_nan() && n.y.is_nan() && n.z.is_nan());
    let n = one_vertex().compute_normals_4d()[Vert::new(0)];
    assert!(n.x.is_nan() && n.y.is_nan() && n.z.is_nan() && n.w.is_nan());
    assert_eq!(normals_3d(&with_verts(Kind::Simplices, 1)), [Normal::Flat]);
}

/// A triangle so small that dot rounds to 0: the Rust's normal is NaN, NaN, infinity; here Flat.
#[test]
fn a_normal_too_small() {
    let small = (-40_f32).exp2();
    let mut mesh = Mesh::empty(Kind::Simplices);
    mesh.verts = vec![
        vertex([0.; 4]),
        vertex([small, 0., 0., 0.]),
        vertex([0., small, 0., 0.]),
    ];
    mesh.areas = vec![even(&[0, 1, 2])];
    let geom: SimplicialGeometry = mesh.geometry::<3, 4, reference::geom::SimplexData>();
    for n in geom.compute_normals_3d().values() {
        assert!(n.x.is_nan() && n.y.is_nan() && n.z == f32::INFINITY);
    }
    assert_eq!(normals_3d(&mesh), [Normal::Flat; 3]);
}

/// A coordinate beyond 1,024: the Rust goes on; here 6.
#[test]
fn a_coordinate_beyond_the_range() {
    let mut mesh = with_verts(Kind::Simplices, 1);
    mesh.verts[0] = vertex([2048., 0., 0., 0.]);
    assert_eq!(
        positions(&subdivided(&mesh, 1, false)),
        [[2048., 0., 0., 0.]]
    );
    assert_eq!(Handed::lend(&mesh, &Lent::all(4)).judge(0), Some(6));
}

/// More than the limit: the Rust goes on; here 10 before the first pass that goes beyond, at the size of the limit
/// itself not yet.
#[test]
fn more_than_the_limit() {
    let mut mesh = with_verts(Kind::Cubes, 1);
    // A curve of cubes that stays on one vertex still grows: n vertices become 2n - 1.
    mesh.curves = vec![curve(&[0, 0], &[0])];
    let refined = refine_within(&mesh, &Lent::enough(), 255, false);
    // 2 to the power 19, and 1; twice as many less 1 is one more than 1,048,576.
    assert_eq!((refined.passes, refined.ended), (19, Ended::Refused(10)));
    assert_eq!(refined.mesh.sizes().curve_verts, 524_289);
    assert_eq!(subdivided(&mesh, 20, false).sizes().curve_verts, 1_048_577);
}

/// Not a difference, but good to know: for simplices, and for cubes without volumes, a fresh book each pass gives the
/// same lists at every depth, since every pair that a pass asks for has an end that the pass before made. Only the
/// book's own length tells (10). Cubes with volumes bring an old pair back, the first at depth 2.
#[test]
fn a_fresh_book() {
    for kind in [Kind::Cubes, Kind::Simplices] {
        let mut brought_back = 0;
        for seed in 0..300 {
            let mut mesh = random::mesh(&mut Rng::new(seed), kind, &Bounds::default());
            brought_back += usize::from(fresh(&mesh, 2) != subdivided(&mesh, 2, true));
            if kind == Kind::Cubes {
                mesh.volumes.clear();
            }
            assert_eq!(fresh(&mesh, 3), subdivided(&mesh, 3, true), "seed {seed}");
        }
        assert_eq!(brought_back > 0, kind == Kind::Cubes);
    }
}

fn fresh(mesh: &Mesh, depth: usize) -> Mesh {
    (0..depth).fold(mesh.clone(), |mesh, _| subdivided(&mesh, 1, true))
}

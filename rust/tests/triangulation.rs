//! Section 6 of document 01: squares into triangles, cubes into tetrahedra.
mod common;

use aljumeste::SimplicialGeometry;
use common::{cubes, curve, v, Even, Odd};

/// Section 6, with a piece dropped where neighbours are equal.
#[test]
fn triangulation() {
    let mut mesh = cubes(8);
    mesh.mk_point(v([5])[0]);
    mesh.mk_line(v([0, 1]), Odd);
    mesh.mk_area(v([0, 1, 2, 3]), Odd);
    mesh.mk_area(v([0, 0, 2, 3]), Even);
    mesh.mk_volume(v([0, 1, 2, 3, 4, 5, 6, 7]), Even);
    mesh.curves.push(curve(&[0, 1], &[Odd]));
    let cut = mesh.triangulated().unwrap();
    let triangles = [([0, 1, 3], Odd), ([0, 2, 3], Even), ([0, 2, 3], Odd)];
    let tetrahedra = [
        ([0, 1, 3, 7], Even),
        ([0, 1, 5, 7], Odd),
        ([0, 2, 3, 7], Odd),
        ([0, 2, 6, 7], Even),
        ([0, 4, 5, 7], Even),
        ([0, 4, 6, 7], Odd),
    ];
    assert_eq!(
        cut,
        SimplicialGeometry {
            areas: triangles.into_iter().map(|(c, p)| (v(c), p)).collect(),
            volumes: tetrahedra.into_iter().map(|(c, p)| (v(c), p)).collect(),
            verts: mesh.verts.clone(),
            curves: mesh.curves.clone(),
            points: mesh.points.clone(),
            lines: mesh.lines.clone(),
        }
    );
    assert_eq!(SimplicialGeometry::from(mesh), cut);
}

#[test]
#[should_panic(expected = "refused by 7: a vertex number is not below the vertex count")]
fn a_triangulation_that_is_refused_panics_in_from() {
    let mut mesh = cubes(1);
    mesh.mk_point(v([1])[0]);
    let _ = SimplicialGeometry::from(mesh);
}

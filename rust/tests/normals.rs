//! Section 7 of document 01: normals, and vertices that have none.
mod common;

use aljumeste::{SimplicialGeometry, Vec3, Vec4};
use common::{vertex, Even, Odd};

#[test]
fn normals_in_three_dimensions() {
    let mut mesh = SimplicialGeometry::default();
    let [a, b, c, lone] =
        [[0., 0.], [4., 0.], [0., 4.], [9., 9.]].map(|[x, y]| mesh.mk_vert(vertex([x, y, 0., 0.])));
    mesh.mk_area([a, b, c], Even);
    let up = Vec3::new(0., 0., 1.);
    let normals = mesh.compute_normals_3d().unwrap();
    assert_eq!([a, b, c].map(|v| normals[v]), [up; 3]);
    // Flat: no triangle meets it.
    assert_eq!(normals[lone], Vec3::default());

    mesh.areas.clear();
    mesh.mk_area([a, b, c], Odd);
    let normals = mesh.compute_normals_3d().unwrap();
    assert_eq!(normals[a], Vec3::new(0., 0., -1.));
}

/// Flat where the square rounds to 0: the original has NaN and an infinity here.
#[test]
fn a_triangle_too_small_for_a_normal() {
    let mut mesh = SimplicialGeometry::default();
    let e = 2f32.powi(-40);
    let corners = [[0., 0.], [e, 0.], [0., e]].map(|[x, y]| mesh.mk_vert(vertex([x, y, 0., 0.])));
    mesh.mk_area(corners, Even);
    let normals = mesh.compute_normals_3d().unwrap();
    assert!(normals.values().all(|n| *n == Vec3::default()));
}

#[test]
fn normals_in_four_dimensions() {
    let mut mesh = SimplicialGeometry::default();
    let corners = [[0., 0., 0.], [2., 0., 0.], [0., 2., 0.], [0., 0., 2.]]
        .map(|[x, y, z]| mesh.mk_vert(vertex([x, y, z, 1.])));
    mesh.mk_volume(corners, Even);
    let normals = mesh.compute_normals_4d().unwrap();
    assert_eq!(normals.len(), 4);
    assert!(normals.values().all(|n| *n == Vec4::new(0., 0., 0., 1.)));
}

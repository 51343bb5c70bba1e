//! Section 5 of document 01: meshes whose volumes close stay closed, and torn ones stay torn.
mod common;

use aljumeste::{
    geom::{CubicalGeometry, SimplicialGeometry, Vert},
    idx::Idx,
    Parity,
};
use common::{cubes, simplices};
use std::collections::HashMap;

type Ledger = HashMap<Vec<Vert>, i64>;

fn sign(parity: Parity) -> i64 {
    if parity.is_even() {
        1
    } else {
        -1
    }
}

/// A tetrahedron adds +, -, +, - to the triples without corner 0, 1, 2, 3.
fn tetrahedra(mesh: &SimplicialGeometry) -> Ledger {
    let mut ledger = Ledger::new();
    for (corners, parity) in mesh.volumes.values() {
        for left_out in 0..4 {
            let mut face = corners.to_vec();
            face.remove(left_out);
            *ledger.entry(face).or_default() += sign(*parity) * [1, -1][left_out % 2];
        }
    }
    ledger
}

const FACES: [[usize; 4]; 6] = [
    [0, 1, 2, 3],
    [0, 1, 4, 5],
    [0, 2, 4, 6],
    [1, 3, 5, 7],
    [2, 3, 6, 7],
    [4, 5, 6, 7],
];

/// A cube adds -, +, -, +, -, + to its faces; nothing to a flat one.
fn cubes_of(mesh: &CubicalGeometry) -> Ledger {
    let mut ledger = Ledger::new();
    for (corners, parity) in mesh.volumes.values() {
        for (i, face) in FACES.iter().enumerate() {
            let [a, b, c, d] = face.map(|corner| corners[corner]);
            if !(a == c && b == d || a == b && c == d) {
                *ledger.entry(vec![a, b, c, d]).or_default() += sign(*parity) * [-1, 1][i % 2];
            }
        }
    }
    ledger
}

fn closed(ledger: &Ledger) -> bool {
    ledger.values().all(|entry| *entry == 0)
}

/// The five tetrahedra that bound a cell of four dimensions.
fn boundary_of_a_simplex() -> SimplicialGeometry {
    let mut mesh = simplices(5);
    for left_out in 0..5 {
        let corners: Vec<Vert> = (0..5).filter(|c| *c != left_out).map(Vert::new).collect();
        mesh.mk_volume(corners.try_into().unwrap(), Parity::from(left_out % 2 == 0));
    }
    mesh
}

/// The eight cubes that bound one: on each axis those without and with its bit.
fn boundary_of_a_cube() -> CubicalGeometry {
    let mut mesh = cubes(16);
    for side in 0..8 {
        let (axis, bit) = (side / 2, side % 2);
        let corners: Vec<Vert> = (0..16)
            .filter(|c| c >> axis & 1 == bit)
            .map(Vert::new)
            .collect();
        mesh.mk_volume(
            corners.try_into().unwrap(),
            Parity::from((axis + bit) % 2 == 0),
        );
    }
    mesh
}

#[test]
fn closed_tetrahedra_stay_closed_and_torn_ones_torn() {
    for depth in 0..4 {
        let mut whole = boundary_of_a_simplex();
        let mut torn = whole.clone();
        torn.volumes.pop();
        whole.subdivide(true, depth).unwrap();
        torn.subdivide(true, depth).unwrap();
        assert_eq!(whole.volumes.len(), 5 << (3 * depth));
        assert!(closed(&tetrahedra(&whole)) && !closed(&tetrahedra(&torn)));
    }
}

#[test]
fn closed_cubes_stay_closed_and_torn_ones_torn() {
    for depth in 0..4 {
        let mut whole = boundary_of_a_cube();
        let mut torn = whole.clone();
        torn.volumes.pop();
        whole.subdivide(true, depth).unwrap();
        torn.subdivide(true, depth).unwrap();
        assert_eq!(whole.volumes.len(), 8 << (3 * depth));
        assert!(closed(&cubes_of(&whole)) && !closed(&cubes_of(&torn)));
    }
}

/// Corners glued together anyhow: what closes still closes.
#[test]
fn glued_corners() {
    let glue = |vert: Vert| Vert::new(vert.index() % 3);
    let mut mesh = boundary_of_a_cube();
    mesh.volumes = mesh
        .volumes
        .map(|(corners, parity)| (corners.map(glue), parity));
    mesh.subdivide(false, 2).unwrap();
    assert!(closed(&cubes_of(&mesh)));
    let mut mesh = boundary_of_a_simplex();
    mesh.volumes = mesh
        .volumes
        .map(|(corners, parity)| (corners.map(glue), parity));
    mesh.subdivide(false, 2).unwrap();
    assert!(closed(&tetrahedra(&mesh)));
}

//! Meshes for the tests, briefly put.
#![allow(dead_code)]

use reference::mesh::{Curve, Element, Kind, Mesh, Vertex};

pub fn vertex(position: [f32; 4]) -> Vertex {
    Vertex {
        bits: position.map(f32::to_bits),
        flags: 0,
        tag: 0,
        k: 0,
    }
}

/// n unflagged vertices at different places.
pub fn with_verts(kind: Kind, n: usize) -> Mesh {
    let mut mesh = Mesh::empty(kind);
    mesh.verts = (0..n)
        .map(|i| {
            let mut v = vertex([i as f32, (i * i) as f32, -(i as f32), 0.5]);
            v.tag = 100 + i as u32;
            v.k = 200 + i as u32;
            v
        })
        .collect();
    mesh
}

pub fn even(corners: &[u32]) -> Element {
    Element {
        corners: corners.to_vec(),
        parity: 0,
    }
}

pub fn odd(corners: &[u32]) -> Element {
    Element {
        corners: corners.to_vec(),
        parity: 1,
    }
}

/// The last word has no step.
pub fn curve(verts: &[u32], steps: &[u32]) -> Curve {
    Curve {
        tag: 7,
        verts: verts.to_vec(),
        steps: steps.iter().copied().chain([0]).collect(),
    }
}

pub fn positions(mesh: &Mesh) -> Vec<[f32; 4]> {
    mesh.verts
        .iter()
        .map(|v| v.bits.map(f32::from_bits))
        .collect()
}

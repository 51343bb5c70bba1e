//! Section 7 from its sentences alone, up to normalising: the sum that each vertex gathers.

use crate::{
    mesh::Mesh,
    model::{axes, Point},
};

/// 3D: triangles with three different corners.
#[must_use]
pub fn sums_3d(mesh: &Mesh) -> Vec<[f32; 3]> {
    let mut sums = vec![[0_f32; 3]; mesh.verts.len()];
    for e in &mesh.areas {
        let [a, b, c] = e.corners[..] else {
            unreachable!()
        };
        if a == b || b == c || a == c {
            continue;
        }
        let at = |v: u32| mesh.verts[v as usize].bits.map(f32::from_bits);
        let (v1, v2, v3) = (at(a), at(b), at(c));
        let p: Vec<f32> = (0..3).map(|i| v2[i] - v1[i]).collect();
        let q: Vec<f32> = (0..3).map(|i| v3[i] - v2[i]).collect();
        let cross = [
            p[1] * q[2] - p[2] * q[1],
            p[2] * q[0] - p[0] * q[2],
            p[0] * q[1] - p[1] * q[0],
        ];
        let sign = if e.parity == 0 { 1_f32 } else { -1. };
        for v in [a, b, c] {
            for i in 0..3 {
                sums[v as usize][i] += sign * cross[i];
            }
        }
    }
    sums
}

/// 4D: every tetrahedron; minor i leaves axis i out; signs -, +, -, +.
#[must_use]
pub fn sums_4d(mesh: &Mesh) -> Vec<Point> {
    let mut sums = vec![[0_f32; 4]; mesh.verts.len()];
    for e in &mesh.volumes {
        let at = |i: usize| mesh.verts[e.corners[i] as usize].bits.map(f32::from_bits);
        let from = at(0);
        let d: Vec<Point> = (1..4).map(|j| axes(|i| at(j)[i] - from[i])).collect();
        let sign = if e.parity == 0 { 1_f32 } else { -1. };
        let n = axes(|left_out| {
            let kept: Vec<usize> = (0..4).filter(|i| *i != left_out).collect();
            let [p, q, r] = [0, 1, 2].map(|c| [0, 1, 2].map(|row: usize| d[row][kept[c]]));
            let det = (p[0] * (q[1] * r[2] - r[1] * q[2]) - q[0] * (p[1] * r[2] - r[1] * p[2]))
                + r[0] * (p[1] * q[2] - q[1] * p[2]);
            sign * if left_out % 2 == 0 { -det } else { det }
        });
        for c in &e.corners {
            for i in 0..4 {
                sums[*c as usize][i] += n[i];
            }
        }
    }
    sums
}

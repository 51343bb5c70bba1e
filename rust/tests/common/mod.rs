//! Meshes for the tests, briefly put.
#![allow(dead_code, unused_imports)]

use aljumeste::{
    geom::{Geometry, Vert},
    idx::Idx,
    CubicalGeometry, CurveData, Parity, SimplicialGeometry, Vec4, VertData,
};

use std::fmt::{Display, Write};
pub use Parity::{Even, Odd};

/// Vertex numbers as corners.
pub fn v<const N: usize>(numbers: [usize; N]) -> [Vert; N] {
    numbers.map(Vert::new)
}

/// Unflagged, with a tag and a k.
pub fn vertex(position: [f32; 4]) -> VertData {
    VertData {
        position: position.into(),
        boundary: [false; 4],
        generator: 0,
        k: 0,
    }
}

/// n unflagged vertices at different places, with different tags.
pub fn spread(n: usize) -> impl Iterator<Item = VertData> {
    (0..n).map(|i| VertData {
        generator: 100 + i as u32,
        k: 200 + i as u32,
        ..vertex([i as f32, (i * i) as f32, -(i as f32), 0.5])
    })
}

pub fn cubes(n: usize) -> CubicalGeometry {
    Geometry {
        verts: spread(n).collect(),
        ..Geometry::default()
    }
}

pub fn simplices(n: usize) -> SimplicialGeometry {
    Geometry {
        verts: spread(n).collect(),
        ..Geometry::default()
    }
}

pub fn curve(verts: &[usize], parities: &[Parity]) -> CurveData {
    CurveData {
        verts: verts.iter().map(|i| Vert::new(*i)).collect(),
        parities: parities.to_vec(),
        generator: 7,
    }
}

pub fn xy(x: f32, y: f32) -> Vec4 {
    Vec4::new(x, y, 0., 0.)
}

/// The listing of section 8.
pub fn listing(passes: u8, mesh: &CubicalGeometry) -> String {
    let mut out = format!("passes {passes}\n");
    let mut line = |head: &str, words: Vec<String>| writeln!(out, "{head} {}", words.join(" "));
    let word = |w: &dyn Display| w.to_string();
    let letter = |p: &Parity| word(&if p.is_even() { 'e' } else { 'o' });
    for (i, vert) in mesh.verts.iter() {
        let bits = <[f32; 4]>::from(vert.position).map(|x| format!("{:08X}", x.to_bits()));
        line("v", [vec![word(&i.index())], bits.to_vec()].concat()).unwrap();
    }
    for p in mesh.points.values() {
        line("p", vec![word(&p.index())]).unwrap();
    }
    let lines = mesh.lines.values().map(|(c, p)| ("l", &c[..], p));
    let areas = mesh.areas.values().map(|(c, p)| ("a", &c[..], p));
    let volumes = mesh.volumes.values().map(|(c, p)| ("s", &c[..], p));
    for (head, corners, parity) in lines.chain(areas).chain(volumes) {
        let corners = corners.iter().map(|c| word(&c.index()));
        line(head, corners.chain([letter(parity)]).collect()).unwrap();
    }
    for curve in mesh.curves.values() {
        let verts = curve.verts.iter().map(|v| word(&v.index()));
        line(
            "c",
            verts.chain(curve.parities.iter().map(letter)).collect(),
        )
        .unwrap();
    }
    out
}

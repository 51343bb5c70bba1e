//! A mesh of the reference as a geometry of the crate `aljumeste`, and back. Flags and parities have types of their own there, so a mesh
//! goes in whose flags and parities are accepted.
use aljumeste::{
    geom::{ElementData, Geometry, Vert},
    idx::Idx,
    CurveData, Parity, VertData,
};
use reference::mesh::{Curve, Element, Kind, Mesh, Vertex};

pub fn geometry<const A: usize, const V: usize, E>(mesh: &Mesh) -> Geometry<E>
where
    E: ElementData<Point = Vert, Line = [Vert; 2], Area = [Vert; A], Volume = [Vert; V]>,
{
    Geometry {
        verts: (mesh.verts.iter())
            .map(|v| VertData {
                position: v.bits.map(f32::from_bits).into(),
                boundary: [0, 1, 2, 3].map(|axis| v.flags >> axis & 1 == 1),
                generator: v.tag,
                k: v.k,
            })
            .collect(),
        curves: (mesh.curves.iter())
            .map(|c| CurveData {
                verts: c.verts.iter().map(vert).collect(),
                parities: (c.steps.iter().take(c.verts.len().saturating_sub(1)))
                    .map(parity)
                    .collect(),
                generator: c.tag,
            })
            .collect(),
        points: mesh.points.iter().map(vert).collect(),
        lines: mesh.lines.iter().map(corners).collect(),
        areas: mesh.areas.iter().map(corners).collect(),
        volumes: mesh.volumes.iter().map(corners).collect(),
    }
}

fn corners<const N: usize>(e: &Element) -> ([Vert; N], Parity) {
    (
        std::array::from_fn(|i| vert(&e.corners[i])),
        parity(&e.parity),
    )
}

fn parity(word: &u32) -> Parity {
    Parity::from(*word == 0)
}

fn vert(number: &u32) -> Vert {
    Vert::new(*number as usize)
}

/// The word beside a curve's last vertex, which a geometry does not have, is 0.
#[allow(dead_code)]
pub fn mesh<const A: usize, const V: usize, E>(kind: Kind, geom: &Geometry<E>) -> Mesh
where
    E: ElementData<Point = Vert, Line = [Vert; 2], Area = [Vert; A], Volume = [Vert; V]>,
{
    Mesh {
        kind,
        verts: (geom.verts.values())
            .map(|v| Vertex {
                bits: <[f32; 4]>::from(v.position).map(f32::to_bits),
                flags: (0..4).map(|axis| u32::from(v.boundary[axis]) << axis).sum(),
                tag: v.generator,
                k: v.k,
            })
            .collect(),
        points: geom.points.values().map(number).collect(),
        lines: geom.lines.values().map(element).collect(),
        areas: geom.areas.values().map(element).collect(),
        volumes: geom.volumes.values().map(element).collect(),
        curves: (geom.curves.values())
            .map(|c| Curve {
                tag: c.generator,
                verts: c.verts.iter().map(number).collect(),
                steps: (c.parities.iter().map(word).chain([0]))
                    .take(c.verts.len())
                    .collect(),
            })
            .collect(),
    }
}

fn element<const N: usize>((corners, parity): &([Vert; N], Parity)) -> Element {
    Element {
        corners: corners.iter().map(number).collect(),
        parity: word(parity),
    }
}

fn number(vert: &Vert) -> u32 {
    vert.index() as u32
}

fn word(parity: &Parity) -> u32 {
    u32::from(!parity.is_even())
}

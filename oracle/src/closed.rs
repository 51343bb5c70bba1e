//! Meshes whose volumes close, meshes whose volumes are torn, and any: each of the first two by the way it is made, and not by a ledger.
use crate::block::block;
use reference::{
    mesh::{Element, Kind, Mesh, Vertex},
    random::{self, Bounds, Rng},
};

/// The ways to make the volumes of a mesh, and whether they then close; none where that is left open.
pub const WAYS: [(&str, Option<bool>); 9] = [
    ("any volumes", None),
    ("any volumes, each again with the other parity", Some(true)),
    ("the boundary in four dimensions", Some(true)),
    ("the boundary, vertices glued anyhow", Some(true)),
    ("the boundary without one volume", Some(false)),
    ("a block", Some(false)),
    ("a block, opposite sides glued", Some(true)),
    ("a block, vertices glued anyhow", None),
    ("one volume of different corners", Some(false)),
];

/// A mesh made in one of the ways. Points, lines, areas and curves are any in all of them, so that pairs meet in the book.
pub fn original(rng: &mut Rng, kind: Kind, way: usize) -> Mesh {
    let mut mesh = random::mesh(rng, kind, &Bounds::default());
    let n = 1 + rng.below(2) as u32;
    match way {
        0 => {}
        1 => doubled(&mut mesh.volumes),
        2 => place(rng, &mut mesh, boundary(kind)),
        3 => glue(rng, &mut mesh, boundary(kind)),
        4 => {
            let mut volumes = boundary(kind);
            volumes.remove(rng.below(volumes.len()));
            place(rng, &mut mesh, volumes);
        }
        5 => place(rng, &mut mesh, block(kind, n).volumes),
        6 => place(rng, &mut mesh, torus(kind, 2)),
        7 => glue(rng, &mut mesh, block(kind, n).volumes),
        _ => place(rng, &mut mesh, vec![one(kind)]),
    }
    mesh
}

fn opposite(volume: &Element) -> Element {
    Element {
        parity: 1 - volume.parity,
        ..volume.clone()
    }
}

/// Every volume again with the other parity, so that each face is met by itself.
fn doubled(volumes: &mut Vec<Element>) {
    let again: Vec<Element> = volumes.iter().rev().map(opposite).collect();
    volumes.extend(again);
}

fn one(kind: Kind) -> Element {
    Element {
        corners: (0..kind.corners()[2] as u32).collect(),
        parity: 0,
    }
}

/// What bounds one cell of four dimensions: five tetrahedra, or eight cubes. A boundary has no boundary.
pub fn boundary(kind: Kind) -> Vec<Element> {
    match kind {
        Kind::Simplices => (0..5).map(without_corner).collect(),
        Kind::Cubes => (0..8).map(|i| side(i / 2, i % 2)).collect(),
    }
}

/// Of corners 0 to 4 all but one; the signs are in turn + and -.
fn without_corner(left_out: u32) -> Element {
    Element {
        corners: (0..5).filter(|c| *c != left_out).collect(),
        parity: left_out % 2,
    }
}

/// Of corners 0 to 15 those with this bit; the signs are in turn + and -, from axis to axis and from side to side.
fn side(axis: u32, bit: u32) -> Element {
    Element {
        corners: (0..16).filter(|c| c >> axis & 1 == bit).collect(),
        parity: (axis + bit) % 2,
    }
}

/// A block whose opposite sides are one: what leaves it on one side comes in on the other.
fn torus(kind: Kind, n: u32) -> Vec<Element> {
    let mut volumes = block(kind, n).volumes;
    let row = n + 1;
    for number in volumes.iter_mut().flat_map(|v| &mut v.corners) {
        let [x, y, z] = [*number, *number / row, *number / row / row].map(|at| at % row % n);
        *number = x + n * (y + n * z);
    }
    volumes
}

/// Puts volumes on different vertices of the mesh, in any order, and turns all of them or none.
fn place(rng: &mut Rng, mesh: &mut Mesh, volumes: Vec<Element>) {
    let needed = above(&volumes);
    while mesh.verts.len() < needed {
        mesh.verts.push(vertex(mesh.verts.len()));
    }
    let mut numbers: Vec<u32> = (0..mesh.verts.len() as u32).collect();
    for i in 0..needed {
        let other = i + rng.below(numbers.len() - i);
        numbers.swap(i, other);
    }
    renumber(rng, mesh, volumes, &numbers);
}

/// Puts volumes on any vertices of the mesh: what closes still does, since faces that were equal stay equal.
fn glue(rng: &mut Rng, mesh: &mut Mesh, volumes: Vec<Element>) {
    if mesh.verts.is_empty() {
        mesh.verts.push(vertex(0));
    }
    let count = mesh.verts.len();
    let numbers: Vec<u32> = (0..above(&volumes))
        .map(|_| rng.below(count) as u32)
        .collect();
    renumber(rng, mesh, volumes, &numbers);
}

fn renumber(rng: &mut Rng, mesh: &mut Mesh, mut volumes: Vec<Element>, numbers: &[u32]) {
    for number in volumes.iter_mut().flat_map(|v| &mut v.corners) {
        *number = numbers[*number as usize];
    }
    if rng.once_in(2) {
        volumes = volumes.iter().map(opposite).collect();
    }
    mesh.volumes = volumes;
}

/// The number above all that the volumes use.
fn above(volumes: &[Element]) -> usize {
    let numbers = volumes.iter().flat_map(|v| &v.corners);
    numbers.max().map_or(0, |last| *last as usize + 1)
}

/// A vertex at a place of its own.
pub fn vertex(number: usize) -> Vertex {
    Vertex {
        bits: [1, 3, 9, 27].map(|power| ((number / power % 3) as f32).to_bits()),
        flags: 0,
        tag: 0,
        k: 0,
    }
}

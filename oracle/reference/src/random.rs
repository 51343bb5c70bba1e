//! Random small inputs for `sheet`: the same seed gives the same inputs.

use crate::{
    mesh::{Curve, Element, Kind, Mesh, Vertex},
    sheet,
};

/// splitmix64.
pub struct Rng(u64);

impl Rng {
    #[must_use]
    pub const fn new(seed: u64) -> Self {
        Self(seed)
    }

    pub fn draw(&mut self) -> u64 {
        self.0 = self.0.wrapping_add(0x9e37_79b9_7f4a_7c15);
        let mut z = self.0;
        z = (z ^ (z >> 30)).wrapping_mul(0xbf58_476d_1ce4_e5b9);
        z = (z ^ (z >> 27)).wrapping_mul(0x94d0_49bb_1331_11eb);
        z ^ (z >> 31)
    }

    /// From 0 up to, and without, n.
    pub fn below(&mut self, n: usize) -> usize {
        (self.draw() % n as u64) as usize
    }

    /// True once in n times.
    pub fn once_in(&mut self, n: usize) -> bool {
        self.below(n) == 0
    }

    pub fn pick<T: Copy>(&mut self, list: &[T]) -> T {
        list[self.below(list.len())]
    }
}

/// How large the inputs are, and which share of them is damaged: one in `damaged`, none at 0.
#[derive(Copy, Clone, Debug)]
pub struct Bounds {
    pub verts: usize,
    pub elements: usize,
    pub depth: usize,
    pub damaged: usize,
}

impl Default for Bounds {
    fn default() -> Self {
        Self {
            verts: 9,
            elements: 4,
            depth: 3,
            damaged: 8,
        }
    }
}

/// One input of `sheet`.
pub fn input(rng: &mut Rng, kind: Kind, bounds: &Bounds) -> Vec<u8> {
    let depth = rng.below(bounds.depth + 1) as u8;
    let smooth_time = rng.once_in(2);
    let mut mesh = mesh(rng, kind, bounds);
    if bounds.damaged == 0 || !rng.once_in(bounds.damaged) {
        return sheet::input(depth, smooth_time, &mesh);
    }
    let times = if rng.once_in(4) { 2 } else { 1 };
    let hurt_bytes: Vec<bool> = (0..times).map(|_| rng.once_in(2)).collect();
    for _ in hurt_bytes.iter().filter(|bytes| !**bytes) {
        damage_mesh(rng, &mut mesh);
    }
    let mut bytes = sheet::input(depth, smooth_time, &mesh);
    for _ in hurt_bytes.iter().filter(|bytes| **bytes) {
        damage_bytes(rng, &mut bytes);
    }
    bytes
}

/// One accepted mesh.
pub fn mesh(rng: &mut Rng, kind: Kind, bounds: &Bounds) -> Mesh {
    let mut mesh = Mesh::empty(kind);
    let count = if rng.once_in(30) {
        0
    } else {
        1 + rng.below(bounds.verts)
    };
    let style = rng.below(6);
    let flagged = rng.pick(&[0, 0, 4, 2, 1]);
    for _ in 0..count {
        let vertex = vertex(rng, style, flagged);
        mesh.verts.push(vertex);
    }
    if count == 0 {
        return mesh;
    }
    for _ in 0..rng.below(bounds.elements + 1) {
        mesh.points.push(rng.below(count) as u32);
    }
    let [_, area, volume] = kind.corners();
    mesh.lines = elements(rng, bounds, 2, count, line);
    mesh.areas = elements(
        rng,
        bounds,
        area,
        count,
        match kind {
            Kind::Cubes => square,
            Kind::Simplices => simplex,
        },
    );
    mesh.volumes = elements(
        rng,
        bounds,
        volume,
        count,
        match kind {
            Kind::Cubes => cube,
            Kind::Simplices => simplex,
        },
    );
    for _ in 0..rng.below(bounds.elements + 1) {
        let curve = curve(rng, &mesh);
        mesh.curves.push(curve);
    }
    mesh
}

fn vertex(rng: &mut Rng, style: usize, flagged: usize) -> Vertex {
    let bits = [(); 4].map(|()| coordinate(rng, style).to_bits());
    let flags = if flagged > 0 && rng.once_in(flagged) {
        rng.below(16) as u32
    } else {
        0
    };
    let word = |rng: &mut Rng| match rng.below(4) {
        0 => rng.draw() as u32,
        1 => u32::MAX,
        _ => rng.below(4) as u32,
    };
    Vertex {
        bits,
        flags,
        tag: word(rng),
        k: word(rng),
    }
}

fn coordinate(rng: &mut Rng, style: usize) -> f32 {
    const EDGES: [f32; 12] = [
        0.0,
        -0.0,
        1024.0,
        -1024.0,
        1_023.999_94,
        f32::MIN_POSITIVE,
        -f32::MIN_POSITIVE,
        1.0,
        -1.0,
        1.000_000_1,
        0.1,
        1e-20,
    ];
    match style {
        0 => rng.below(17) as f32 - 8.,
        1 => (rng.below(9) as f32 - 4.) * 0.25,
        2 => rng.below(1 << 24) as f32 / 8192. - 1024.,
        3 => rng.pick(&EDGES),
        // Any accepted bits, subnormals among them.
        4 => f32::from_bits(rng.below(0x4480_0001) as u32 | (rng.below(2) as u32) << 31),
        _ => {
            let style = rng.below(5);
            if rng.once_in(16) {
                f32::from_bits(1 + rng.below(4) as u32)
            } else {
                coordinate(rng, style)
            }
        }
    }
}

/// A list of elements: new ones, earlier ones again, earlier ones with their corners in another order.
fn elements(
    rng: &mut Rng,
    bounds: &Bounds,
    corners: usize,
    count: usize,
    new: impl Fn(&mut Rng, usize, usize, &[Element]) -> Vec<u32>,
) -> Vec<Element> {
    let mut list: Vec<Element> = vec![];
    for _ in 0..rng.below(bounds.elements + 1) {
        let corners = match list.last() {
            Some(last) if rng.once_in(6) => last.corners.clone(),
            Some(last) if rng.once_in(5) => last.corners.iter().rev().copied().collect(),
            Some(last) if rng.once_in(8) => {
                let (mut c, i, j) = (last.corners.clone(), rng.below(corners), rng.below(corners));
                c.swap(i, j);
                c
            }
            _ => new(rng, corners, count, &list),
        };
        let parity = rng.below(2) as u32;
        list.push(Element { corners, parity });
    }
    list
}

fn any(rng: &mut Rng, corners: usize, count: usize) -> Vec<u32> {
    (0..corners).map(|_| rng.below(count) as u32).collect()
}

/// Different corners while there are enough.
fn different(rng: &mut Rng, corners: usize, count: usize) -> Vec<u32> {
    let mut all: Vec<u32> = (0..count as u32).collect();
    for i in 0..count {
        all.swap(i, i + rng.below(count - i));
    }
    (0..corners).map(|i| all[i % count]).collect()
}

fn line(rng: &mut Rng, corners: usize, count: usize, _: &[Element]) -> Vec<u32> {
    if rng.once_in(8) {
        vec![rng.below(count) as u32; 2]
    } else if rng.once_in(3) {
        any(rng, corners, count)
    } else {
        different(rng, corners, count)
    }
}

fn square(rng: &mut Rng, corners: usize, count: usize, list: &[Element]) -> Vec<u32> {
    let mut c = different(rng, corners, count);
    match rng.below(10) {
        // Flat both ways.
        0 => c = vec![c[0], c[1], c[0], c[1]],
        1 => c = vec![c[0], c[0], c[2], c[2]],
        // The first corner is the last, or the other diagonal closes.
        2 => c[3] = c[0],
        3 => c[2] = c[1],
        // One edge of one point.
        4 => c[1] = c[0],
        5 => c = any(rng, corners, count),
        // An edge shared with an earlier square.
        6 if !list.is_empty() => {
            let old = &list[rng.below(list.len())].corners;
            c[0] = old[1];
            c[2] = old[3];
        }
        _ => {}
    }
    c
}

fn cube(rng: &mut Rng, corners: usize, count: usize, list: &[Element]) -> Vec<u32> {
    let mut c = different(rng, corners, count);
    match rng.below(12) {
        // Flat along an axis.
        0 => (0..4).for_each(|i| c[i + 4] = c[i]),
        1 => [0, 1, 4, 5].into_iter().for_each(|i| c[i + 2] = c[i]),
        2 => [0, 2, 4, 6].into_iter().for_each(|i| c[i + 1] = c[i]),
        // Corners 0 = 3 and 2 = 7: an old pair is met again at depth 2.
        3 | 4 => {
            c[3] = c[0];
            c[7] = c[2];
        }
        5 => c = any(rng, corners, count),
        // Two corners fall together.
        6 => {
            let (i, j) = (rng.below(corners), rng.below(corners));
            c[i] = c[j];
        }
        7 => c[7] = c[0],
        // A face shared with an earlier cube, in the same order or in the opposite one.
        8 if !list.is_empty() => {
            let old = list[rng.below(list.len())].corners.clone();
            (0..4).for_each(|i| c[i] = old[4 + i]);
        }
        9 if !list.is_empty() => {
            let old = list[rng.below(list.len())].corners.clone();
            (0..4).for_each(|i| c[i] = old[7 - i]);
        }
        // The vertices in order.
        10 => c = (0..corners as u32).map(|i| i % count as u32).collect(),
        _ => {}
    }
    c
}

fn simplex(rng: &mut Rng, corners: usize, count: usize, list: &[Element]) -> Vec<u32> {
    let mut c = different(rng, corners, count);
    match rng.below(8) {
        // Two corners fall together, all of them, or any.
        0 => {
            let (i, j) = (rng.below(corners), rng.below(corners));
            c[i] = c[j];
        }
        1 if rng.once_in(2) => c = vec![c[0]; corners],
        2 => c = any(rng, corners, count),
        // A face shared with an earlier one, in the same order or in the opposite one.
        3 if !list.is_empty() => {
            let old = list[rng.below(list.len())].corners.clone();
            (1..corners).for_each(|i| c[i] = old[i]);
        }
        4 if !list.is_empty() => {
            let old = list[rng.below(list.len())].corners.clone();
            (1..corners).for_each(|i| c[i] = old[corners - i]);
        }
        _ => {}
    }
    c
}

/// One vertex, or a walk: along lines where one goes on, anywhere else; a step may stay where it is.
fn curve(rng: &mut Rng, mesh: &Mesh) -> Curve {
    let count = mesh.verts.len();
    let length = if rng.once_in(4) { 1 } else { 2 + rng.below(4) };
    let mut verts = vec![rng.below(count) as u32];
    let mut steps = vec![];
    while verts.len() < length {
        let here = *verts.last().unwrap();
        let on = mesh.lines.iter().find(|l| l.corners[0] == here);
        match on {
            Some(line) if rng.once_in(2) => verts.push(line.corners[1]),
            _ => verts.push(rng.below(count) as u32),
        }
        steps.push(rng.below(2) as u32);
    }
    steps.push(0);
    Curve {
        tag: rng.draw() as u32,
        verts,
        steps,
    }
}

/// A wrong word: flags, a parity, a coordinate, a vertex number, a curve without vertices.
fn damage_mesh(rng: &mut Rng, mesh: &mut Mesh) {
    const COORDINATES: [u32; 8] = [
        0x4480_0001, // the next binary32 above 1,024
        0xc480_0001,
        0x7f80_0000, // infinities
        0xff80_0000,
        0x7fc0_0000, // NaN
        0x7f80_0001,
        0xffff_ffff,
        0x4500_0000,
    ];
    let count = mesh.verts.len();
    if count == 0 {
        return;
    }
    let number = rng.pick(&[count as u32, count as u32 + 1, u32::MAX, 0x8000_0000]);
    let parity = rng.pick(&[2, 3, 128, 255]);
    let mut lists = [&mut mesh.lines, &mut mesh.areas, &mut mesh.volumes];
    let list = &mut lists[rng.below(3)];
    let (vertex, axis) = (rng.below(count), rng.below(4));
    match rng.below(7) {
        0 => mesh.verts[vertex].flags = rng.pick(&[16, 17, 31, 240, 255]),
        1 => mesh.verts[vertex].bits[axis] = rng.pick(&COORDINATES),
        2 if !mesh.points.is_empty() => {
            let at = rng.below(mesh.points.len());
            mesh.points[at] = number;
        }
        3 if !list.is_empty() => {
            let at = rng.below(list.len());
            let corner = rng.below(list[at].corners.len());
            list[at].corners[corner] = number;
        }
        4 if !list.is_empty() => {
            let at = rng.below(list.len());
            list[at].parity = parity;
        }
        5 if !mesh.curves.is_empty() => {
            let at = rng.below(mesh.curves.len());
            mesh.curves[at].verts.clear();
            mesh.curves[at].steps.clear();
        }
        6 if !mesh.curves.is_empty() => {
            let at = rng.below(mesh.curves.len());
            let step = rng.below(mesh.curves[at].verts.len().max(1));
            match mesh.curves[at].steps.get_mut(step) {
                Some(word) if rng.once_in(2) => *word = parity,
                Some(_) => mesh.curves[at].verts[step] = number,
                None => {}
            }
        }
        _ => mesh.verts[vertex].bits[axis] = rng.pick(&COORDINATES),
    }
}

/// Wrong bytes: version, kind, smooth_time, a count, any byte, too few, too many.
fn damage_bytes(rng: &mut Rng, bytes: &mut Vec<u8>) {
    let any = rng.draw() as u8;
    match rng.below(9) {
        0 if bytes.len() > 1 => bytes[1] = 2 + any % 254,
        1 if bytes.len() > 2 => bytes[2] = any,
        2 if bytes.len() > 3 => bytes[3] = 2 + any % 254,
        3 if bytes.len() > 7 => {
            let count = rng.pick(&[1024_u32, 1025, 65_536, 1_048_576, 1_048_577, u32::MAX]);
            bytes[4..8].copy_from_slice(&count.to_be_bytes());
        }
        4 | 5 if bytes.len() > 1 => bytes.truncate(1 + rng.below(bytes.len() - 1)),
        6 => bytes.extend((0..=any % 4).map(|i| any.rotate_left(u32::from(i)))),
        _ => {
            let at = rng.below(bytes.len());
            bytes[at] = any;
        }
    }
}

//! A mesh as document 01 has it: 32-bit words, accepted or not, and its way into the carried `Geometry` and back.

use crate::{
    geom::{CurveData, ElementData, Geometry, Vert, VertData},
    idx::Idx,
    parity::Parity,
    Vec4,
};

/// "1,048,576 entries in each list".
pub const LIMIT: usize = 1_048_576;

#[derive(Copy, Clone, Debug, PartialEq, Eq)]
pub enum Kind {
    Cubes,
    Simplices,
}

impl Kind {
    /// The file's kind byte.
    #[must_use]
    pub const fn byte(self) -> u8 {
        match self {
            Self::Cubes => 0,
            Self::Simplices => 1,
        }
    }

    /// The corners of a line, an area and a volume.
    #[must_use]
    pub const fn corners(self) -> [usize; 3] {
        match self {
            Self::Cubes => [2, 4, 8],
            Self::Simplices => [2, 3, 4],
        }
    }
}

/// "A vertex: position, four boundary flags, tag, k." The position is kept by its bits.
#[derive(Copy, Clone, Debug, PartialEq, Eq)]
pub struct Vertex {
    pub bits: [u32; 4],
    pub flags: u32,
    pub tag: u32,
    pub k: u32,
}

/// A line, an area or a volume; parity 0 is even, 1 odd.
#[derive(Clone, Debug, PartialEq, Eq)]
pub struct Element {
    pub corners: Vec<u32>,
    pub parity: u32,
}

/// `steps` is as long as `verts`: the parity of the step to the next vertex; the last word has no step, is carried
/// along and is never read.
#[derive(Clone, Debug, PartialEq, Eq)]
pub struct Curve {
    pub tag: u32,
    pub verts: Vec<u32>,
    pub steps: Vec<u32>,
}

#[derive(Clone, Debug, PartialEq, Eq)]
pub struct Mesh {
    pub kind: Kind,
    pub verts: Vec<Vertex>,
    pub points: Vec<u32>,
    pub lines: Vec<Element>,
    pub areas: Vec<Element>,
    pub volumes: Vec<Element>,
    pub curves: Vec<Curve>,
}

/// One number for each list that has entries: a mesh's sizes, or the counts that a caller hands in.
#[derive(Copy, Clone, Debug, Default, PartialEq, Eq)]
pub struct Sizes {
    pub verts: usize,
    pub points: usize,
    pub lines: usize,
    pub areas: usize,
    pub volumes: usize,
    pub curves: usize,
    pub curve_verts: usize,
}

impl Sizes {
    #[must_use]
    pub const fn list(&self) -> [usize; 7] {
        [
            self.verts,
            self.points,
            self.lines,
            self.areas,
            self.volumes,
            self.curves,
            self.curve_verts,
        ]
    }

    #[must_use]
    pub const fn all(n: usize) -> Self {
        Self {
            verts: n,
            points: n,
            lines: n,
            areas: n,
            volumes: n,
            curves: n,
            curve_verts: n,
        }
    }

    /// Some list is longer here than there.
    #[must_use]
    pub fn exceeds(&self, other: &Self) -> bool {
        self.list().iter().zip(other.list()).any(|(a, b)| *a > b)
    }
}

/// The lent cells of each list and of the book.
#[derive(Copy, Clone, Debug, PartialEq, Eq)]
pub struct Lent {
    pub lists: Sizes,
    pub book: usize,
}

impl Lent {
    #[must_use]
    pub const fn all(n: usize) -> Self {
        Self {
            lists: Sizes::all(n),
            book: n,
        }
    }

    /// No lent length stands in the way; the limit still does.
    #[must_use]
    pub const fn enough() -> Self {
        Self::all(LIMIT)
    }
}

impl Mesh {
    #[must_use]
    pub const fn empty(kind: Kind) -> Self {
        Self {
            kind,
            verts: vec![],
            points: vec![],
            lines: vec![],
            areas: vec![],
            volumes: vec![],
            curves: vec![],
        }
    }

    #[must_use]
    pub fn sizes(&self) -> Sizes {
        Sizes {
            verts: self.verts.len(),
            points: self.points.len(),
            lines: self.lines.len(),
            areas: self.areas.len(),
            volumes: self.volumes.len(),
            curves: self.curves.len(),
            curve_verts: self.curves.iter().map(|c| c.verts.len()).sum(),
        }
    }

    /// Document 02's U5: the mesh with every parity changed, of lines, areas, volumes and of each curve's steps. The word beside a curve's last
    /// vertex has no step and stays.
    #[must_use]
    pub fn turned(&self) -> Self {
        let mut turned = self.clone();
        for list in [&mut turned.lines, &mut turned.areas, &mut turned.volumes] {
            list.iter_mut().for_each(|e| e.parity ^= 1);
        }
        for curve in &mut turned.curves {
            let steps = curve.verts.len() - 1;
            curve.steps[..steps].iter_mut().for_each(|s| *s ^= 1);
        }
        turned
    }

    /// The carried geometry of an accepted mesh. A and V are the corners of an area and of a volume.
    #[must_use]
    pub fn geometry<const A: usize, const V: usize, E>(&self) -> Geometry<E>
    where
        E: ElementData<Point = Vert, Line = [Vert; 2], Area = [Vert; A], Volume = [Vert; V]>,
    {
        Geometry {
            verts: self.verts.iter().map(vert_data).collect(),
            curves: self.curves.iter().map(curve_data).collect(),
            points: self.points.iter().map(vert).collect(),
            lines: self.lines.iter().map(element).collect(),
            areas: self.areas.iter().map(element).collect(),
            volumes: self.volumes.iter().map(element).collect(),
        }
    }

    /// The carried geometry as words. `before` is the mesh that it came from: its curves' last words are carried.
    #[must_use]
    pub fn from_geometry<const A: usize, const V: usize, E>(
        kind: Kind,
        geom: &Geometry<E>,
        before: &Self,
    ) -> Self
    where
        E: ElementData<Point = Vert, Line = [Vert; 2], Area = [Vert; A], Volume = [Vert; V]>,
    {
        Self {
            kind,
            verts: geom.verts.values().map(vertex_words).collect(),
            points: geom.points.values().map(number).collect(),
            lines: geom.lines.values().map(element_words).collect(),
            areas: geom.areas.values().map(element_words).collect(),
            volumes: geom.volumes.values().map(element_words).collect(),
            curves: geom
                .curves
                .values()
                .zip(&before.curves)
                .map(|(curve, old)| curve_words(curve, *old.steps.last().unwrap()))
                .collect(),
        }
    }
}

fn vert(number: &u32) -> Vert {
    Vert::new(*number as usize)
}

fn number(vert: &Vert) -> u32 {
    vert.index() as u32
}

fn parity(word: u32) -> Parity {
    Parity::from(word == 0)
}

fn parity_word(parity: Parity) -> u32 {
    u32::from(!parity.is_even())
}

fn vert_data(v: &Vertex) -> VertData {
    let [x, y, z, w] = v.bits.map(f32::from_bits);
    VertData {
        position: Vec4::new(x, y, z, w),
        boundary: [0, 1, 2, 3].map(|axis| v.flags >> axis & 1 == 1),
        generator: v.tag,
        k: v.k as usize,
    }
}

fn vertex_words(v: &VertData) -> Vertex {
    Vertex {
        bits: [0, 1, 2, 3].map(|axis| v.position[axis].to_bits()),
        flags: (0..4).map(|axis| u32::from(v.boundary[axis]) << axis).sum(),
        tag: v.generator,
        k: v.k as u32,
    }
}

fn element<const N: usize>(e: &Element) -> ([Vert; N], Parity) {
    let corners: Vec<Vert> = e.corners.iter().map(vert).collect();
    (corners.try_into().unwrap(), parity(e.parity))
}

fn element_words<const N: usize>((corners, parity): &([Vert; N], Parity)) -> Element {
    Element {
        corners: corners.iter().map(number).collect(),
        parity: parity_word(*parity),
    }
}

fn curve_data(c: &Curve) -> CurveData {
    CurveData {
        verts: c.verts.iter().map(vert).collect(),
        parities: c.steps[..c.verts.len() - 1]
            .iter()
            .map(|p| parity(*p))
            .collect(),
        generator: c.tag,
    }
}

fn curve_words(c: &CurveData, last: u32) -> Curve {
    Curve {
        tag: c.generator,
        verts: c.verts.iter().map(number).collect(),
        steps: c
            .parities
            .iter()
            .map(|p| parity_word(*p))
            .chain([last])
            .collect(),
    }
}

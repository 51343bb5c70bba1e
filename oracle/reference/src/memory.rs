//! Meshes in memory: the judge of raw words, and the refinements within lent cells.
//!
//! "In memory, at depth 0 too: 9, 5, 6, 7, 8, then 10 for the lists handed in, then 10 for what is to be written, in
//! a refinement before each pass."

use crate::{
    geom::{CubeData, CubicalGeometry, SimplexData, SimplicialGeometry},
    mesh::{Curve, Element, Kind, Lent, Mesh, Sizes, Vertex, LIMIT},
    model::Model,
};

/// "coordinates finite, from -1,024 to 1,024".
#[must_use]
pub fn coordinate_is_accepted(bits: u32) -> bool {
    // Comparisons with NaN are false, and an infinity is beyond 1,024.
    (-1024.0..=1024.0).contains(&f32::from_bits(bits))
}

/// One bench of lent cells as raw words, a row to each entry: position bits (4 words), marks (flags, tag, k), points
/// (1), lines, areas, volumes (corners, then parity), curves (tag, vertex count), curve vertices (vertex, parity of
/// the step to the next).
#[derive(Clone, Debug, Default, PartialEq, Eq)]
pub struct Bench {
    pub pos: Vec<u32>,
    pub marks: Vec<u32>,
    pub points: Vec<u32>,
    pub lines: Vec<u32>,
    pub areas: Vec<u32>,
    pub volumes: Vec<u32>,
    pub curves: Vec<u32>,
    pub curve_verts: Vec<u32>,
}

impl Bench {
    /// Cells for each list, every word 0.
    #[must_use]
    pub fn lent(kind: Kind, cells: &Sizes) -> Self {
        let [line, area, volume] = kind.corners();
        Self {
            pos: vec![0; 4 * cells.verts],
            marks: vec![0; 3 * cells.verts],
            points: vec![0; cells.points],
            lines: vec![0; (line + 1) * cells.lines],
            areas: vec![0; (area + 1) * cells.areas],
            volumes: vec![0; (volume + 1) * cells.volumes],
            curves: vec![0; 2 * cells.curves],
            curve_verts: vec![0; 2 * cells.curve_verts],
        }
    }

    /// A slice's length divided by the words of a row, rounded down; of a list in two slices, the smaller.
    #[must_use]
    pub fn cells(&self, kind: Kind) -> Sizes {
        let [line, area, volume] = kind.corners();
        Sizes {
            verts: (self.pos.len() / 4).min(self.marks.len() / 3),
            points: self.points.len(),
            lines: self.lines.len() / (line + 1),
            areas: self.areas.len() / (area + 1),
            volumes: self.volumes.len() / (volume + 1),
            curves: self.curves.len() / 2,
            curve_verts: self.curve_verts.len() / 2,
        }
    }

    /// How long the slices are. A list's two benches are unequal where these differ, in a file as in memory, whatever the kind.
    #[must_use]
    pub fn lengths(&self) -> [usize; 8] {
        [
            &self.pos,
            &self.marks,
            &self.points,
            &self.lines,
            &self.areas,
            &self.volumes,
            &self.curves,
            &self.curve_verts,
        ]
        .map(Vec::len)
    }

    /// Writes a mesh that fits over the first cells; the cells past it stay.
    pub fn put(&mut self, mesh: &Mesh) {
        fn over(cells: &mut [u32], words: impl Iterator<Item = u32>) {
            for (at, word) in words.enumerate() {
                cells[at] = word;
            }
        }
        fn rows(elements: &[Element]) -> impl Iterator<Item = u32> + '_ {
            elements
                .iter()
                .flat_map(|e| e.corners.iter().copied().chain([e.parity]))
        }

        over(&mut self.pos, mesh.verts.iter().flat_map(|v| v.bits));
        over(
            &mut self.marks,
            mesh.verts.iter().flat_map(|v| [v.flags, v.tag, v.k]),
        );
        over(&mut self.points, mesh.points.iter().copied());
        over(&mut self.lines, rows(&mesh.lines));
        over(&mut self.areas, rows(&mesh.areas));
        over(&mut self.volumes, rows(&mesh.volumes));
        over(
            &mut self.curves,
            mesh.curves
                .iter()
                .flat_map(|c| [c.tag, c.verts.len() as u32]),
        );
        over(
            &mut self.curve_verts,
            mesh.curves
                .iter()
                .flat_map(|c| c.verts.iter().zip(&c.steps).flat_map(|(v, s)| [*v, *s])),
        );
    }

    /// The mesh of the first entries, where the counts fit and the curve lengths add up.
    #[must_use]
    pub fn mesh(&self, kind: Kind, counts: &Sizes) -> Mesh {
        fn elements(words: &[u32], count: usize, corners: usize) -> Vec<Element> {
            words
                .chunks(corners + 1)
                .take(count)
                .map(|row| Element {
                    corners: row[..corners].to_vec(),
                    parity: row[corners],
                })
                .collect()
        }

        let [line, area, volume] = kind.corners();
        let mut at = 0;
        Mesh {
            kind,
            verts: (0..counts.verts)
                .map(|i| Vertex {
                    bits: [0, 1, 2, 3].map(|axis| self.pos[4 * i + axis]),
                    flags: self.marks[3 * i],
                    tag: self.marks[3 * i + 1],
                    k: self.marks[3 * i + 2],
                })
                .collect(),
            points: self.points[..counts.points].to_vec(),
            lines: elements(&self.lines, counts.lines, line),
            areas: elements(&self.areas, counts.areas, area),
            volumes: elements(&self.volumes, counts.volumes, volume),
            curves: (0..counts.curves)
                .map(|i| {
                    let rows = at..at + self.curves[2 * i + 1] as usize;
                    at = rows.end;
                    Curve {
                        tag: self.curves[2 * i],
                        verts: rows.clone().map(|r| self.curve_verts[2 * r]).collect(),
                        steps: rows.map(|r| self.curve_verts[2 * r + 1]).collect(),
                    }
                })
                .collect(),
        }
    }
}

/// The words of a cell of the book.
pub const BOOK_WORDS: usize = 6;

/// What a caller hands to a refinement in memory, but for depth and smooth_time. Lengths are in words: the book has
/// `BOOK_WORDS` a cell, the sums 4, the tally 2 (count, touch).
#[derive(Clone, Debug)]
pub struct Handed {
    pub kind: Kind,
    pub first: Bench,
    pub second: Bench,
    pub book: usize,
    pub sum: usize,
    pub tally: usize,
    pub counts: Sizes,
}

impl Handed {
    /// A mesh on benches with the given cells, smoothing's cells as long as the vertex benches.
    #[must_use]
    pub fn lend(mesh: &Mesh, lent: &Lent) -> Self {
        let second = Bench::lent(mesh.kind, &lent.lists);
        let mut first = second.clone();
        first.put(mesh);
        Self {
            kind: mesh.kind,
            first,
            second,
            book: BOOK_WORDS * lent.book,
            sum: 4 * lent.lists.verts,
            tally: 2 * lent.lists.verts,
            counts: mesh.sizes(),
        }
    }

    #[must_use]
    pub fn lent(&self) -> Lent {
        Lent {
            lists: self.first.cells(self.kind),
            book: self.book / BOOK_WORDS,
        }
    }

    /// "9 a list handed in counts more entries than its lent cells, curve lengths don't add up to the curve vertices,
    /// or a list's two benches are unequal"; "Smoothing's lent cells (sum, count, touch) are as long as the vertex
    /// benches, else 9."
    #[must_use]
    pub fn host_is_wrong(&self) -> bool {
        let cells = self.first.cells(self.kind);
        if self.counts.exceeds(&cells) {
            return true;
        }
        let lengths = self.first.curves.chunks(2).take(self.counts.curves);
        let total: u64 = lengths.map(|row| u64::from(row[1])).sum();
        total != self.counts.curve_verts as u64
            || self.second.lengths() != self.first.lengths()
            || self.sum / 4 != cells.verts
            || self.tally / 2 != cells.verts
    }

    /// The refusal at the door, if one is due.
    #[must_use]
    pub fn judge(&self, smooth_time: u32) -> Option<u8> {
        if self.host_is_wrong() {
            return Some(9);
        }
        let mesh = self.first.mesh(self.kind, &self.counts);
        if smooth_time > 1 {
            return Some(5);
        }
        judge_mesh(&mesh).or_else(|| judge_counts(&self.counts))
    }

    /// The entry in memory, whole: the refusal at the door, or the refinement.
    #[must_use]
    pub fn subdivide(&self, depth: u8, smooth_time: u32) -> Answer {
        if let Some(number) = self.judge(smooth_time) {
            return Answer {
                passes: 0,
                sizes: self.counts,
                ended: Ended::Refused(number),
                left: None,
            };
        }
        let mesh = self.first.mesh(self.kind, &self.counts);
        let refined = refine_within(&mesh, &self.lent(), depth, smooth_time == 1);
        Answer {
            passes: refined.passes,
            sizes: refined.mesh.sizes(),
            ended: refined.ended,
            left: Some(refined.mesh),
        }
    }
}

/// 5, 6, 7, 8 in this order, each over the whole mesh.
#[must_use]
pub fn judge_mesh(mesh: &Mesh) -> Option<u8> {
    let elements = || mesh.lines.iter().chain(&mesh.areas).chain(&mesh.volumes);
    let steps = |c: &Curve| {
        c.steps[..c.verts.len().saturating_sub(1)]
            .iter()
            .any(|s| *s > 1)
    };
    let beyond = |v: &u32| *v as usize >= mesh.verts.len();

    if mesh.verts.iter().any(|v| v.flags > 15)
        || elements().any(|e| e.parity > 1)
        || mesh.curves.iter().any(steps)
    {
        return Some(5);
    }
    if mesh
        .verts
        .iter()
        .any(|v| !v.bits.into_iter().all(coordinate_is_accepted))
    {
        return Some(6);
    }
    if mesh.points.iter().any(beyond)
        || elements().any(|e| e.corners.iter().any(beyond))
        || mesh.curves.iter().any(|c| c.verts.iter().any(beyond))
    {
        return Some(7);
    }
    mesh.curves.iter().any(|c| c.verts.is_empty()).then_some(8)
}

/// 10 for the lists handed in, which lie within their lent cells: a count above the limit.
#[must_use]
pub fn judge_counts(counts: &Sizes) -> Option<u8> {
    counts.exceeds(&Sizes::all(LIMIT)).then_some(10)
}

#[derive(Copy, Clone, Debug, PartialEq, Eq)]
pub enum Ended {
    Finished,
    Refused(u8),
}

/// "A refinement's answer is a record: passes, sizes and how it ended", and the mesh left where it got past the door.
#[derive(Clone, Debug, PartialEq, Eq)]
pub struct Answer {
    pub passes: usize,
    pub sizes: Sizes,
    pub ended: Ended,
    pub left: Option<Mesh>,
}

#[derive(Clone, Debug, PartialEq, Eq)]
pub struct Refined {
    pub passes: usize,
    pub mesh: Mesh,
    pub ended: Ended,
}

/// The carried `subdivide` on a copy of an accepted mesh, with the tags and k that it gives: those of the first ends.
#[must_use]
pub fn subdivided(mesh: &Mesh, depth: u8, smooth_time: bool) -> Mesh {
    match mesh.kind {
        Kind::Cubes => {
            let mut geom: CubicalGeometry = mesh.geometry::<4, 8, CubeData>();
            geom.subdivide(smooth_time, depth);
            Mesh::from_geometry(Kind::Cubes, &geom, mesh)
        }
        Kind::Simplices => {
            let mut geom: SimplicialGeometry = mesh.geometry::<3, 4, SimplexData>();
            geom.subdivide(smooth_time, depth);
            Mesh::from_geometry(Kind::Simplices, &geom, mesh)
        }
    }
}

/// Refines an accepted mesh pass by pass and stops before the first pass whose result would exceed a lent length or
/// the limit. The book's size is the number of vertices made since the start. The carried code keeps its book through
/// one `subdivide` call alone, so the state after d passes is that of a call of depth d from the start. All is the carried code's but tags and k,
/// which are the model's: "Tags and k leave the oracle runs" (document 02, U3).
#[must_use]
pub fn refine_within(mesh: &Mesh, lent: &Lent, depth: u8, smooth_time: bool) -> Refined {
    let mut refined = carried_within(mesh, lent, depth, smooth_time);
    Model::new(mesh).put_strands(refined.passes, &mut refined.mesh);
    refined
}

fn carried_within(mesh: &Mesh, lent: &Lent, depth: u8, smooth_time: bool) -> Refined {
    let mut left = mesh.clone();
    for pass in 1..=depth {
        let next = subdivided(mesh, pass, smooth_time);
        let made = next.verts.len() - mesh.verts.len();
        let sizes = next.sizes();
        if sizes.exceeds(&lent.lists)
            || sizes.exceeds(&Sizes::all(LIMIT))
            || made > lent.book
            || made > LIMIT
        {
            return Refined {
                passes: usize::from(pass) - 1,
                mesh: left,
                ended: Ended::Refused(10),
            };
        }
        left = next;
    }
    Refined {
        passes: usize::from(depth),
        mesh: left,
        ended: Ended::Finished,
    }
}

/// The carried triangulation of an accepted mesh of cubes.
#[must_use]
pub fn triangulated(mesh: &Mesh) -> Mesh {
    let geom: CubicalGeometry = mesh.geometry::<4, 8, CubeData>();
    Mesh::from_geometry::<3, 4, SimplexData>(Kind::Simplices, &SimplicialGeometry::from(geom), mesh)
}

/// "a normal is a direction with its components, or Flat with none", kept by its bits.
#[derive(Copy, Clone, Debug, PartialEq, Eq)]
pub enum Normal<const N: usize> {
    Direction([u32; N]),
    Flat,
}

/// Where dot rounds to 0 the carried code divides 1 by 0: no component is then finite (0 times infinity is NaN).
/// Where it doesn't, every component is finite. So Flat is read off the carried code's own answer.
fn normal<const N: usize>(components: [f32; N]) -> Normal<N> {
    if components.iter().all(|c| c.is_finite()) {
        Normal::Direction(components.map(f32::to_bits))
    } else {
        Normal::Flat
    }
}

/// The carried 3D normals of an accepted mesh of simplices.
#[must_use]
pub fn normals_3d(mesh: &Mesh) -> Vec<Normal<3>> {
    let geom: SimplicialGeometry = mesh.geometry::<3, 4, SimplexData>();
    let normals = geom.compute_normals_3d();
    normals.values().map(|n| normal([n.x, n.y, n.z])).collect()
}

/// The carried 4D normals of an accepted mesh of simplices.
#[must_use]
pub fn normals_4d(mesh: &Mesh) -> Vec<Normal<4>> {
    let geom: SimplicialGeometry = mesh.geometry::<3, 4, SimplexData>();
    let normals = geom.compute_normals_4d();
    normals
        .values()
        .map(|n| normal([n.x, n.y, n.z, n.w]))
        .collect()
}

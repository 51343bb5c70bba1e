//! Sections 2 to 4 as a model, written from document 01's sentences alone, with document 02's U3 for tag and k: nothing of the carried code is
//! asked. The carried code is held against it, the ledgers of section 5 are refined over its book, and the tags and k that are expected of
//! a refinement are its own.

use std::collections::HashMap;

use crate::mesh::{Curve, Element, Kind, Mesh, Vertex};

pub type Point = [f32; 4];

pub fn axes(f: impl Fn(usize) -> f32) -> Point {
    [f(0), f(1), f(2), f(3)]
}

/// "((c0·w0 + c1·w1) + c2·w2) + c3·w3"
fn column_rule(c: [Point; 4], w: [f32; 4]) -> Point {
    axes(|i| ((c[0][i] * w[0] + c[1][i] * w[1]) + c[2][i] * w[2]) + c[3][i] * w[3])
}

/// The tag and k of the vertex that is made between two.
pub type Strand = fn(&Vertex, &Vertex) -> [u32; 2];

/// U3: "tag and k both come from the end with the smaller k, read as unsigned, the first end on a tie". Of several least ones `min_by_key` gives the
/// first.
#[must_use]
pub fn strand(first: &Vertex, second: &Vertex) -> [u32; 2] {
    let end = [first, second].into_iter().min_by_key(|end| end.k).unwrap();
    [end.tag, end.k]
}

/// A mesh under refinement, the one book of all its passes, and its rule for tag and k.
pub struct Model {
    pub mesh: Mesh,
    book: HashMap<[u32; 2], u32>,
    strand: Strand,
}

/// Section 3's pieces of a tetrahedron: places 0 to 3 are the corners, 4 to 9 the midpoints 0 to 5.
const TETRA: [([usize; 4], u32); 8] = [
    ([0, 4, 5, 6], 0),
    ([4, 1, 7, 8], 0),
    ([5, 7, 2, 9], 0),
    ([6, 8, 9, 3], 0),
    ([4, 5, 6, 8], 0),
    ([4, 5, 7, 8], 1),
    ([5, 7, 8, 9], 1),
    ([5, 6, 8, 9], 0),
];

/// A cube's corner i has coordinates (bit 2, bit 1, bit 0), and the 27 places of its division have coordinates 0 to
/// 2 along each axis: a piece's corner is the corner of the small box at its own corner.
fn place(cube: &[u32], at: [usize; 3]) -> [u32; 2] {
    let bit = |x: usize, high: bool| match x {
        0 => 0,
        1 => usize::from(high),
        _ => 1,
    };
    let corner = |high: bool| bit(at[0], high) << 2 | bit(at[1], high) << 1 | bit(at[2], high);
    [cube[corner(false)], cube[corner(true)]]
}

impl Model {
    #[must_use]
    pub fn new(mesh: &Mesh) -> Self {
        Self::by(mesh, strand)
    }

    /// With another rule for tag and k.
    #[must_use]
    pub fn by(mesh: &Mesh, strand: Strand) -> Self {
        Self {
            mesh: mesh.clone(),
            book: HashMap::new(),
            strand,
        }
    }

    fn position(&self, v: u32) -> Point {
        self.mesh.verts[v as usize].bits.map(f32::from_bits)
    }

    /// "a pair that is in the book gives its vertex, else a vertex is made". "Cubes only: [a,a] gives a itself".
    fn mid(&mut self, a: u32, b: u32) -> u32 {
        if self.mesh.kind == Kind::Cubes && a == b {
            return a;
        }
        if let Some(v) = self.book.get(&[a, b]) {
            return *v;
        }
        let (p, q) = (self.position(a), self.position(b));
        let (first, second) = (&self.mesh.verts[a as usize], &self.mesh.verts[b as usize]);
        let [tag, k] = (self.strand)(first, second);
        let v = self.mesh.verts.len() as u32;
        self.mesh.verts.push(Vertex {
            bits: axes(|i| 0.5 * (p[i] + q[i])).map(f32::to_bits),
            flags: first.flags & second.flags,
            tag,
            k,
        });
        self.book.insert([a, b], v);
        v
    }

    /// The midpoint of a pair that the passes so far have met.
    #[must_use]
    pub fn known(&self, a: u32, b: u32) -> u32 {
        if self.mesh.kind == Kind::Cubes && a == b {
            a
        } else {
            self.book[&[a, b]]
        }
    }

    pub fn pass(&mut self, smooth_time: bool) {
        self.lists();
        self.smooth(smooth_time);
    }

    /// The tag and k of every vertex of a mesh that this one became in so many passes.
    pub fn put_strands(mut self, passes: usize, refined: &mut Mesh) {
        (0..passes).for_each(|_| self.lists());
        assert_eq!(refined.verts.len(), self.mesh.verts.len());
        for (vertex, own) in refined.verts.iter_mut().zip(&self.mesh.verts) {
            (vertex.tag, vertex.k) = (own.tag, own.k);
        }
    }

    /// A pass but for its smoothing: every list, the book, tags and k; none of them waits for a coordinate.
    pub fn lists(&mut self) {
        let old = self.mesh.clone();
        self.mesh.lines.clear();
        self.mesh.areas.clear();
        self.mesh.volumes.clear();
        self.mesh.curves.clear();

        for line in &old.lines {
            let [a, b] = line.corners[..] else {
                unreachable!()
            };
            let known = self.book.contains_key(&[a, b]);
            let nothing = known || (old.kind == Kind::Cubes && a == b);
            if !nothing {
                let v = self.mid(a, b);
                for corners in [vec![a, v], vec![v, b]] {
                    self.mesh.lines.push(Element {
                        corners,
                        parity: line.parity,
                    });
                }
            }
        }
        for area in &old.areas {
            match old.kind {
                Kind::Cubes => self.square(area),
                Kind::Simplices => self.triangle(area),
            }
        }
        for volume in &old.volumes {
            match old.kind {
                Kind::Cubes => self.cube(volume),
                Kind::Simplices => self.tetrahedron(volume),
            }
        }
        for curve in &old.curves {
            let new = self.curve(curve);
            self.mesh.curves.push(new);
        }
    }

    fn smooth(&mut self, smooth_time: bool) {
        let (sums, counts) = match self.mesh.kind {
            Kind::Cubes => self.smooth_cubes(),
            Kind::Simplices => self.smooth_simplices(),
        };
        for (v, vertex) in self.mesh.verts.iter_mut().enumerate() {
            for (axis, sum) in sums[v].iter().enumerate() {
                let flagged = vertex.flags >> axis & 1 == 1;
                if counts[v] > 0 && !flagged && (axis < 3 || smooth_time) {
                    vertex.bits[axis] = (sum / counts[v] as f32).to_bits();
                }
            }
        }
    }

    fn triangle(&mut self, area: &Element) {
        let [a, b, c] = area.corners[..] else {
            unreachable!()
        };
        let (p, q, r) = (self.mid(a, b), self.mid(a, c), self.mid(b, c));
        for (corners, flip) in [
            ([a, p, q], 0),
            ([p, b, r], 0),
            ([q, r, c], 0),
            ([p, q, r], 1),
        ] {
            self.mesh.areas.push(Element {
                corners: corners.to_vec(),
                parity: area.parity ^ flip,
            });
        }
    }

    fn tetrahedron(&mut self, volume: &Element) {
        let mut places = volume.corners.clone();
        for [i, j] in [[0, 1], [0, 2], [0, 3], [1, 2], [1, 3], [2, 3]] {
            let v = self.mid(places[i], places[j]);
            places.push(v);
        }
        for (piece, flip) in TETRA {
            self.mesh.volumes.push(Element {
                corners: piece.map(|i| places[i]).to_vec(),
                parity: volume.parity ^ flip,
            });
        }
    }

    fn square(&mut self, area: &Element) {
        let [a, b, c, d] = area.corners[..] else {
            unreachable!()
        };
        if a == d {
            return;
        }
        if is_flat_square(&area.corners) {
            self.mid(a, d);
            return;
        }
        let ad = self.mid(a, d);
        let (ab, ac) = (self.mid(a, b), self.mid(a, c));
        let (bd, cd) = (self.mid(b, d), self.mid(c, d));
        for piece in [
            [a, ab, ac, ad],
            [ab, b, ad, bd],
            [ac, ad, c, cd],
            [ad, bd, cd, d],
        ] {
            if !is_flat_square(&piece) {
                self.mesh.areas.push(Element {
                    corners: piece.to_vec(),
                    parity: area.parity,
                });
            }
        }
    }

    fn cube(&mut self, volume: &Element) {
        let c = &volume.corners;
        // Edges in the order of their ends' numbers, then faces likewise, then the whole.
        for differ in [1, 2, 3] {
            for low in 0..8_usize {
                for high in low..8 {
                    if low & high == low && (low ^ high).count_ones() == differ {
                        self.mid(c[low], c[high]);
                    }
                }
            }
        }
        for i in 0..8 {
            let mut piece = vec![];
            for j in 0..8 {
                let along = |axis: usize| (i >> (2 - axis) & 1) + (j >> (2 - axis) & 1);
                let [a, b] = place(c, [along(0), along(1), along(2)]);
                piece.push(self.known(a, b));
            }
            if !is_flat_cube(&piece) {
                self.mesh.volumes.push(Element {
                    corners: piece,
                    parity: volume.parity,
                });
            }
        }
    }

    fn curve(&mut self, curve: &Curve) -> Curve {
        let (mut verts, mut steps) = (vec![curve.verts[0]], vec![]);
        for (i, pair) in curve.verts.windows(2).enumerate() {
            let (u, w) = (pair[0], pair[1]);
            let v = if curve.steps[i] == 0 {
                self.mid(u, w)
            } else {
                self.mid(w, u)
            };
            verts.extend([v, w]);
            steps.extend([curve.steps[i]; 2]);
        }
        steps.push(*curve.steps.last().unwrap());
        Curve {
            tag: curve.tag,
            verts,
            steps,
        }
    }

    fn smooth_simplices(&self) -> (Vec<Point>, Vec<u32>) {
        let n = self.mesh.verts.len();
        let (mut sums, mut counts) = (vec![[0_f32; 4]; n], vec![0; n]);
        for list in [&self.mesh.volumes, &self.mesh.areas, &self.mesh.lines] {
            for e in list {
                let mut sum = [0_f32; 4];
                for c in &e.corners {
                    let p = self.position(*c);
                    sum = axes(|i| sum[i] + p[i]);
                }
                let mean = axes(|i| sum[i] / e.corners.len() as f32);
                for c in &e.corners {
                    let v = *c as usize;
                    sums[v] = axes(|i| sums[v][i] + mean[i]);
                    counts[v] += 1;
                }
            }
        }
        (sums, counts)
    }

    fn smooth_cubes(&self) -> (Vec<Point>, Vec<u32>) {
        let n = self.mesh.verts.len();
        let (mut sums, mut counts) = (vec![[0_f32; 4]; n], vec![0; n]);
        let mut lowest = vec![3; n];
        for (rank, list) in [&self.mesh.lines, &self.mesh.areas, &self.mesh.volumes]
            .into_iter()
            .enumerate()
        {
            for e in list {
                let p: Vec<Point> = e.corners.iter().map(|c| self.position(*c)).collect();
                let zero = [0_f32; 4];
                let given = match rank {
                    0 => column_rule([p[0], p[1], zero, zero], [0.5, 0.5, 0., 0.]),
                    1 => column_rule([p[0], p[1], p[2], p[3]], [0.25; 4]),
                    _ => {
                        let upper = column_rule([p[0], p[1], p[2], p[3]], [0.125; 4]);
                        let lower = column_rule([p[4], p[5], p[6], p[7]], [0.125; 4]);
                        axes(|i| upper[i] + lower[i])
                    }
                };
                for c in &e.corners {
                    let v = *c as usize;
                    if lowest[v] >= rank {
                        lowest[v] = rank;
                        sums[v] = axes(|i| sums[v][i] + given[i]);
                        counts[v] += 1;
                    }
                }
            }
        }
        (sums, counts)
    }
}

/// "A flat square is [a,b,a,b] or [a,a,c,c]".
#[must_use]
pub fn is_flat_square(s: &[u32]) -> bool {
    (s[0] == s[2] && s[1] == s[3]) || (s[0] == s[1] && s[2] == s[3])
}

fn is_flat_cube(c: &[u32]) -> bool {
    [1, 2, 4].into_iter().any(|axis| {
        (0..8)
            .filter(|i| i & axis == 0)
            .all(|i| c[i] == c[i | axis])
    })
}

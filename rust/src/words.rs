//! A geometry as words, and back: points and elements are words where they stand, vertices and curves are turned into words and out of
//! them.
use crate::{
    geom::{Curve, CurveData, ElementData, Geometry, Vert, VertData},
    idx::{Idx, IdxVec},
    lists::Lists,
    parity::Parity,
    raw::{Mesh, Sizes},
    rows, Refusal,
};

impl<const A: usize, const V: usize, E> Geometry<E>
where
    E: ElementData<Point = Vert, Line = [Vert; 2], Area = [Vert; A], Volume = [Vert; V]>,
{
    /// The sizes of the mesh. A curve whose parities are not one fewer than its vertices has no words: it is refused by 9, before all else.
    pub(crate) fn sizes(&self) -> Result<Sizes, Refusal> {
        let mut steps = 0;
        for curve in self.curves.values() {
            if curve.parities.len() != curve.verts.len().saturating_sub(1) {
                return Err(Refusal::Lists);
            }
            steps += curve.verts.len();
        }
        Ok([
            self.verts.len(),
            self.points.len(),
            self.lines.len(),
            self.areas.len(),
            self.volumes.len(),
            self.curves.len(),
            steps,
        ])
    }

    /// Lends the whole mesh, with its sizes, to an entry that writes none of its lists.
    pub(crate) fn shared<T>(&self, entry: impl FnOnce(Mesh, &Sizes) -> T) -> Result<T, Refusal> {
        let sizes = self.sizes()?;
        let positions: Vec<_> = self.positions().collect();
        let marks: Vec<_> = self.marks().collect();
        let curves: Vec<_> = self.strands().collect();
        let steps: Vec<_> = self.steps().collect();
        let mesh = Mesh {
            positions: positions.as_flattened(),
            marks: marks.as_flattened(),
            points: rows::numbers(self.points.as_slice()),
            lines: rows::shared(self.lines.as_slice()),
            areas: rows::shared(self.areas.as_slice()),
            volumes: rows::shared(self.volumes.as_slice()),
            curves: curves.as_flattened(),
            steps: steps.as_flattened(),
        };
        Ok(entry(mesh, &sizes))
    }

    /// Writes the mesh over the first cells of lists that have as many.
    pub(crate) fn put(&self, lists: &mut Lists<A, V>) {
        put(&mut lists.positions, self.positions());
        put(&mut lists.marks, self.marks());
        copy(&mut lists.points, rows::numbers(self.points.as_slice()));
        copy(
            rows::lent(&mut lists.lines),
            rows::shared(self.lines.as_slice()),
        );
        copy(
            rows::lent(&mut lists.areas),
            rows::shared(self.areas.as_slice()),
        );
        copy(
            rows::lent(&mut lists.volumes),
            rows::shared(self.volumes.as_slice()),
        );
        put(&mut lists.curves, self.strands());
        put(&mut lists.steps, self.steps());
    }

    fn positions(&self) -> impl Iterator<Item = [f32; 4]> + '_ {
        self.verts.values().map(|vert| vert.position.into())
    }

    fn marks(&self) -> impl Iterator<Item = [u32; 3]> + '_ {
        (self.verts.values()).map(|vert| [flags(vert.boundary), vert.generator, vert.k])
    }

    fn strands(&self) -> impl Iterator<Item = [u32; 2]> + '_ {
        (self.curves.values()).map(|curve| [curve.generator, Vert::new(curve.verts.len()).0])
    }

    fn steps(&self) -> impl Iterator<Item = [u32; 2]> + '_ {
        self.curves.values().flat_map(|curve| {
            // The last vertex has no step: the word beside it is never read.
            let parities = curve.parities.iter().copied().chain([Parity::Even]);
            (curve.verts.iter().zip(parities)).map(|(vert, parity)| [vert.0, parity as u32])
        })
    }
}

fn put<T>(cells: &mut [T], rows: impl Iterator<Item = T>) {
    for (cell, row) in cells.iter_mut().zip(rows) {
        *cell = row;
    }
}

fn copy(cells: &mut [u32], words: &[u32]) {
    cells[..words.len()].copy_from_slice(words);
}

/// The vertices of as many rows.
pub(crate) fn verts(positions: &[[f32; 4]], marks: &[[u32; 3]]) -> IdxVec<Vert, VertData> {
    (positions.iter().zip(marks))
        .map(|(position, [flags, generator, k])| VertData {
            position: (*position).into(),
            boundary: [0, 1, 2, 3].map(|axis| flags >> axis & 1 == 1),
            generator: *generator,
            k: *k,
        })
        .collect()
}

/// The curves of as many rows; their steps follow each other.
pub(crate) fn curves(curves: &[[u32; 2]], mut steps: &[[u32; 2]]) -> IdxVec<Curve, CurveData> {
    (curves.iter())
        .map(|[generator, count]| {
            let own;
            (own, steps) = steps.split_at(*count as usize);
            curve(*generator, own)
        })
        .collect()
}

fn curve(generator: u32, steps: &[[u32; 2]]) -> CurveData {
    // The word beside the last vertex belongs to no step.
    let between = steps.len().saturating_sub(1);
    CurveData {
        verts: steps.iter().map(|[vert, _]| Vert(*vert)).collect(),
        parities: (steps[..between].iter())
            .map(|[_, parity]| Parity::from(*parity == 0))
            .collect(),
        generator,
    }
}

fn flags(boundary: [bool; 4]) -> u32 {
    (0..4).map(|axis| u32::from(boundary[axis]) << axis).sum()
}

//! The lists of one bench, while they are this crate's to lend.
use crate::{
    raw::{Bench, Sizes},
    rows::{self, Row},
};

/// Cells for a mesh whose areas have A corners and whose volumes V. Any words may stand in them.
pub(crate) struct Lists<const A: usize, const V: usize> {
    pub positions: Vec<[f32; 4]>,
    pub marks: Vec<[u32; 3]>,
    pub points: Vec<u32>,
    pub lines: Vec<Row<2>>,
    pub areas: Vec<Row<A>>,
    pub volumes: Vec<Row<V>>,
    pub curves: Vec<[u32; 2]>,
    pub steps: Vec<[u32; 2]>,
}

impl<const A: usize, const V: usize> Lists<A, V> {
    /// So many cells of each list, every word 0.
    pub fn zeroed(cells: &Sizes) -> Self {
        let [verts, points, lines, areas, volumes, curves, steps] = *cells;
        Self {
            positions: vec![[0.0; 4]; verts],
            marks: vec![[0; 3]; verts],
            points: vec![0; points],
            lines: rows::zeroed(lines),
            areas: rows::zeroed(areas),
            volumes: rows::zeroed(volumes),
            curves: vec![[0; 2]; curves],
            steps: vec![[0; 2]; steps],
        }
    }

    /// To be written.
    pub fn lent(&mut self) -> Bench<'_> {
        Bench {
            positions: self.positions.as_flattened_mut(),
            marks: self.marks.as_flattened_mut(),
            points: &mut self.points,
            lines: rows::lent(&mut self.lines),
            areas: rows::lent(&mut self.areas),
            volumes: rows::lent(&mut self.volumes),
            curves: self.curves.as_flattened_mut(),
            steps: self.steps.as_flattened_mut(),
        }
    }
}

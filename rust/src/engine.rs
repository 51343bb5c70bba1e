//! Geometries and the entries that leave elements: the rows that an entry has written become a geometry's own lists, where they stand.
//!
//! `unsafe` says one thing here: the engine left these rows. The exports are proved to leave 0 or 1 as the last word of each row that an
//! answer counts: their contracts say it by crates/geom/specs, by `Leaves` for a refinement, by `triangulation`, and by `loaded` for a
//! file. Past these rows any word may stand.
#![allow(unsafe_code)]

use crate::{
    geom::{CubicalGeometry, ElementData, Geometry, SimplicialGeometry, Vert},
    lending::{needs, Kind},
    lists::Lists,
    raw::{self, Desk, Sizes, BOOK_WORDS},
    rows, words, Refusal, LIMIT,
};

impl<const A: usize, const V: usize, E> Geometry<E>
where
    E: ElementData<Point = Vert, Line = [Vert; 2], Area = [Vert; A], Volume = [Vert; V]>,
{
    /// Becomes the mesh after the whole passes, if there are any.
    pub(crate) fn refine(
        &mut self,
        kind: &Kind<A, V>,
        smooth_time: bool,
        depth: u8,
    ) -> Result<(), Refusal> {
        let sizes = self.sizes()?;
        let (cells, book) = needs(kind, &sizes, depth);
        let [mut first, mut second] = [&cells; 2].map(Lists::zeroed);
        self.put(&mut first);
        let (number, [passes, left @ ..]) = (kind.subdivide)(
            Desk {
                first: first.lent(),
                second: second.lent(),
                book: &mut vec![0; BOOK_WORDS * book],
                sums: &mut vec![0.0; 4 * cells[0]],
                tallies: &mut vec![0; 2 * cells[0]],
            },
            &sizes,
            depth,
            smooth_time.into(),
        );
        if passes > 0 {
            // The bench that the last whole pass wrote.
            let lists = if passes % 2 == 0 { first } else { second };
            // SAFETY: the engine left a mesh of this kind and of these sizes on this bench.
            *self = unsafe { Self::left_in(lists, &left) };
        }
        Refusal::judged(number, passes)
    }

    /// Reads a file of this kind, or one that is refused, with so many cells.
    pub(crate) fn read(kind: &Kind<A, V>, file: &[u8], cells: &Sizes) -> Result<Self, Refusal> {
        let [mut first, mut second] = [cells; 2].map(Lists::zeroed);
        let (number, [read, sizes @ ..]) = raw::read(file, first.lent(), second.lent().into());
        Refusal::judged(number, 0)?;
        assert_eq!(read, kind.number, "the other kind has other rows");
        // SAFETY: the engine left a mesh of this kind and of these sizes on the first bench.
        Ok(unsafe { Self::left_in(first, &sizes) })
    }

    /// The mesh of the first cells.
    ///
    /// # Safety
    /// The engine left a mesh of this kind and of these sizes there.
    unsafe fn left_in(lists: Lists<A, V>, sizes: &Sizes) -> Self {
        let [verts, points, lines, areas, volumes, curves, _] = *sizes;
        // SAFETY: the engine left these rows.
        let (lines, areas, volumes) = unsafe {
            (
                rows::elements(lists.lines, lines),
                rows::elements(lists.areas, areas),
                rows::elements(lists.volumes, volumes),
            )
        };
        Self {
            verts: words::verts(&lists.positions[..verts], &lists.marks),
            curves: words::curves(&lists.curves[..curves], &lists.steps),
            points: rows::cut(lists.points, points)
                .into_iter()
                .map(Vert)
                .collect(),
            lines: lines.into(),
            areas: areas.into(),
            volumes: volumes.into(),
        }
    }
}

impl CubicalGeometry {
    /// The triangles and tetrahedra alone.
    pub(crate) fn pieces(&self) -> Result<SimplicialGeometry, Refusal> {
        let mut triangles = rows::zeroed(LIMIT.min(2 * self.areas.len()));
        let mut tetrahedra = rows::zeroed(LIMIT.min(6 * self.volumes.len()));
        let (number, [_, _, _, areas, volumes, ..]) = self.shared(|mesh, sizes| {
            let (triangles, tetrahedra) = (rows::lent(&mut triangles), rows::lent(&mut tetrahedra));
            raw::triangulate(mesh, sizes, triangles, tetrahedra)
        })?;
        Refusal::judged(number, 0)?;
        // SAFETY: the engine left so many triangles and so many tetrahedra.
        let (areas, volumes) = unsafe {
            (
                rows::elements(triangles, areas),
                rows::elements(tetrahedra, volumes),
            )
        };
        Ok(Geometry {
            areas: areas.into(),
            volumes: volumes.into(),
            ..Geometry::default()
        })
    }
}

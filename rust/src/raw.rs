//! The exports of libaljumeste.a, over lists that the caller lends: what stands below the geometries, for a caller who chooses every
//! length. include/aljumeste.h says what each list, row and word means.
//!
//! An export is proved to answer any words in any lists of any lengths, so every function here is safe to call: a list crosses as its
//! pointer and its length, and is borrowed until the call is over; lists that are written are apart from all others.
//!
//! ```
//! use aljumeste::raw::{self, Bench, Desk, BOOK_WORDS};
//!
//! // A line from vertex 0 to vertex 1, refined once: cells for three vertices, two lines and one midpoint.
//! let (mut positions, mut marks, mut lines) = ([0.0; 12], [0; 9], [0; 6]);
//! let (mut other_positions, mut other_marks, mut other_lines) = ([0.0; 12], [0; 9], [0; 6]);
//! positions[4] = 8.0;
//! lines[1] = 1;
//! let desk = Desk {
//!     first: Bench {
//!         positions: &mut positions,
//!         marks: &mut marks,
//!         lines: &mut lines,
//!         ..Bench::default()
//!     },
//!     second: Bench {
//!         positions: &mut other_positions,
//!         marks: &mut other_marks,
//!         lines: &mut other_lines,
//!         ..Bench::default()
//!     },
//!     book: &mut [0; BOOK_WORDS],
//!     sums: &mut [0.0; 12],
//!     tallies: &mut [0; 6],
//! };
//! let (number, [passes, left @ ..]) = raw::subdivide_simplices(desk, &[2, 0, 1, 0, 0, 0, 0], 1, 0);
//! assert_eq!((number, passes, left), (0, 1, [3, 0, 2, 0, 0, 0, 0]));
//! assert_eq!(raw::left(&lines, &other_lines, passes as u8, 3 * left[2]), [0, 2, 0, 2, 1, 0]);
//! ```
#![allow(unsafe_code)]

/// One number for each list: vertices, points, lines, areas, volumes, curves, curve vertices.
pub type Sizes = [usize; 7];

/// The words of a cell of the midpoint book.
pub const BOOK_WORDS: usize = 6;

/// What an export tells: the refusal's number, 0 where there is none, and the words of its answer.
pub type Told<const WORDS: usize> = (u8, [usize; WORDS]);

/// The lists of one bench, lent to be written. A cell is a whole row; a list's lent cells are its length divided by the words of a row,
/// rounded down.
#[derive(Debug, Default, PartialEq)]
pub struct Bench<'a> {
    /// Of a vertex: x, y, z, w.
    pub positions: &'a mut [f32],
    /// Of a vertex: flags (bit i is axis i), tag, k.
    pub marks: &'a mut [u32],
    /// A vertex number.
    pub points: &'a mut [u32],
    /// Two corners, then the parity: 0 even, 1 odd.
    pub lines: &'a mut [u32],
    /// Four corners for cubes, three for simplices, then the parity.
    pub areas: &'a mut [u32],
    /// Eight corners for cubes, four for simplices, then the parity.
    pub volumes: &'a mut [u32],
    /// Tag, vertex count.
    pub curves: &'a mut [u32],
    /// Of a vertex of a curve: its number, and the parity of the step to the next. The last one's is never read; a pass and a file write 0.
    pub steps: &'a mut [u32],
}

/// The same lists, lent to be read: they may lie over each other.
#[derive(Copy, Clone, Debug, Default, PartialEq)]
pub struct Mesh<'a> {
    /// x, y, z, w.
    pub positions: &'a [f32],
    /// Flags, tag, k.
    pub marks: &'a [u32],
    /// A vertex number.
    pub points: &'a [u32],
    /// Two corners, parity.
    pub lines: &'a [u32],
    /// Four or three corners, parity.
    pub areas: &'a [u32],
    /// Eight or four corners, parity.
    pub volumes: &'a [u32],
    /// Tag, vertex count.
    pub curves: &'a [u32],
    /// A vertex number, the parity of the step to the next.
    pub steps: &'a [u32],
}

/// What was written, to be read.
impl<'a> From<Bench<'a>> for Mesh<'a> {
    fn from(bench: Bench<'a>) -> Self {
        Self {
            positions: bench.positions,
            marks: bench.marks,
            points: bench.points,
            lines: bench.lines,
            areas: bench.areas,
            volumes: bench.volumes,
            curves: bench.curves,
            steps: bench.steps,
        }
    }
}

/// All that a refinement is lent.
#[derive(Debug, Default, PartialEq)]
pub struct Desk<'a> {
    /// Where the mesh is handed in, and left after an even number of passes.
    pub first: Bench<'a>,
    /// Where it is left after an odd number. Each of its lists is as long as the first's.
    pub second: Bench<'a>,
    /// The midpoint book, [`BOOK_WORDS`] a midpoint.
    pub book: &'a mut [u32],
    /// Smoothing's sums, four numbers a vertex: as many cells as the vertices have.
    pub sums: &'a mut [f32],
    /// Smoothing's counts and touches, two words a vertex: as many cells too.
    pub tallies: &'a mut [u32],
}

extern "C" {
    fn aljumeste_root(x: f32) -> f32;
    fn aljumeste_normalise_3d(v: &mut [f32; 3]) -> bool;
    fn aljumeste_normalise_4d(v: &mut [f32; 4]) -> bool;
    fn aljumeste_triangulate(
        positions: *const f32,
        positions_words: usize,
        marks: *const u32,
        marks_words: usize,
        points: *const u32,
        points_words: usize,
        lines: *const u32,
        lines_words: usize,
        areas: *const u32,
        areas_words: usize,
        volumes: *const u32,
        volumes_words: usize,
        curves: *const u32,
        curves_words: usize,
        steps: *const u32,
        steps_words: usize,
        sizes: &Sizes,
        triangles: *mut u32,
        triangles_words: usize,
        tetrahedra: *mut u32,
        tetrahedra_words: usize,
        answer: &mut Sizes,
    ) -> u8;
    fn aljumeste_read(
        file: *const u8,
        file_bytes: usize,
        positions: *mut f32,
        positions_words: usize,
        marks: *mut u32,
        marks_words: usize,
        points: *mut u32,
        points_words: usize,
        lines: *mut u32,
        lines_words: usize,
        areas: *mut u32,
        areas_words: usize,
        volumes: *mut u32,
        volumes_words: usize,
        curves: *mut u32,
        curves_words: usize,
        steps: *mut u32,
        steps_words: usize,
        other_positions: *const f32,
        other_positions_words: usize,
        other_marks: *const u32,
        other_marks_words: usize,
        other_points: *const u32,
        other_points_words: usize,
        other_lines: *const u32,
        other_lines_words: usize,
        other_areas: *const u32,
        other_areas_words: usize,
        other_volumes: *const u32,
        other_volumes_words: usize,
        other_curves: *const u32,
        other_curves_words: usize,
        other_steps: *const u32,
        other_steps_words: usize,
        answer: &mut [usize; 8],
    ) -> u8;
}

/// The IEEE 754 square root.
#[must_use]
pub fn root(x: f32) -> f32 {
    // SAFETY: numbers alone cross.
    unsafe { aljumeste_root(x) }
}

/// Replaces a vector by its direction. One that has none, Flat, becomes +0 in every place, and the answer is false.
pub fn normalise_3d(v: &mut [f32; 3]) -> bool {
    // SAFETY: three numbers, lent for the call.
    unsafe { aljumeste_normalise_3d(v) }
}

/// The same of four components.
pub fn normalise_4d(v: &mut [f32; 4]) -> bool {
    // SAFETY: four numbers, lent for the call.
    unsafe { aljumeste_normalise_4d(v) }
}

/// The refinement of one kind: its name here, and its export.
macro_rules! refinement {
    ($(#[$words:meta])* $name:ident, $export:ident) => {
        $(#[$words])*
        pub fn $name(
            desk: Desk,
            sizes: &Sizes,
            depth: u8,
            smooth_time: u8,
        ) -> Told<8> {
            extern "C" {
                fn $export(
                    positions: *mut f32,
                    positions_words: usize,
                    marks: *mut u32,
                    marks_words: usize,
                    points: *mut u32,
                    points_words: usize,
                    lines: *mut u32,
                    lines_words: usize,
                    areas: *mut u32,
                    areas_words: usize,
                    volumes: *mut u32,
                    volumes_words: usize,
                    curves: *mut u32,
                    curves_words: usize,
                    steps: *mut u32,
                    steps_words: usize,
                    other_positions: *mut f32,
                    other_positions_words: usize,
                    other_marks: *mut u32,
                    other_marks_words: usize,
                    other_points: *mut u32,
                    other_points_words: usize,
                    other_lines: *mut u32,
                    other_lines_words: usize,
                    other_areas: *mut u32,
                    other_areas_words: usize,
                    other_volumes: *mut u32,
                    other_volumes_words: usize,
                    other_curves: *mut u32,
                    other_curves_words: usize,
                    other_steps: *mut u32,
                    other_steps_words: usize,
                    book: *mut u32,
                    book_words: usize,
                    sums: *mut f32,
                    sums_words: usize,
                    tallies: *mut u32,
                    tallies_words: usize,
                    sizes: &Sizes,
                    depth: u8,
                    smooth_time: u8,
                    answer: &mut [usize; 8],
                ) -> u8;
            }
            let Desk { first, second, book, sums, tallies } = desk;
            let mut answer = [0; 8];
            // SAFETY: every pointer has its own list's length, and the lists of a desk are lent for the call, apart from each other.
            let number = unsafe {
                $export(
                    first.positions.as_mut_ptr(),
                    first.positions.len(),
                    first.marks.as_mut_ptr(),
                    first.marks.len(),
                    first.points.as_mut_ptr(),
                    first.points.len(),
                    first.lines.as_mut_ptr(),
                    first.lines.len(),
                    first.areas.as_mut_ptr(),
                    first.areas.len(),
                    first.volumes.as_mut_ptr(),
                    first.volumes.len(),
                    first.curves.as_mut_ptr(),
                    first.curves.len(),
                    first.steps.as_mut_ptr(),
                    first.steps.len(),
                    second.positions.as_mut_ptr(),
                    second.positions.len(),
                    second.marks.as_mut_ptr(),
                    second.marks.len(),
                    second.points.as_mut_ptr(),
                    second.points.len(),
                    second.lines.as_mut_ptr(),
                    second.lines.len(),
                    second.areas.as_mut_ptr(),
                    second.areas.len(),
                    second.volumes.as_mut_ptr(),
                    second.volumes.len(),
                    second.curves.as_mut_ptr(),
                    second.curves.len(),
                    second.steps.as_mut_ptr(),
                    second.steps.len(),
                    book.as_mut_ptr(),
                    book.len(),
                    sums.as_mut_ptr(),
                    sums.len(),
                    tallies.as_mut_ptr(),
                    tallies.len(),
                    sizes,
                    depth,
                    smooth_time,
                    &mut answer,
                )
            };
            (number, answer)
        }
    };
}

refinement! {
    /// Refines cubes. Answers 0 when finished, else the refusal's number; and the passes, then the sizes of the mesh left.
    subdivide_cubes, aljumeste_subdivide_cubes
}
refinement! {
    /// Refines simplices, on the same terms.
    subdivide_simplices, aljumeste_subdivide_simplices
}

/// What is left of a list: its name here, its export, and what its words are.
macro_rules! left {
    ($(#[$words:meta])* $name:ident, $export:ident, $word:ty) => {
        $(#[$words])*
        #[must_use]
        pub fn $name<'a>(
            first: &'a [$word],
            second: &'a [$word],
            passes: u8,
            words: usize,
        ) -> &'a [$word] {
            extern "C" {
                fn $export(
                    first: *const $word,
                    first_words: usize,
                    second: *const $word,
                    second_words: usize,
                    passes: u8,
                    words: usize,
                    answer: &mut [usize; 2],
                );
            }
            let mut answer = [0; 2];
            // SAFETY: both pointers have their own list's length, and the lists are only read.
            unsafe {
                $export(
                    first.as_ptr(),
                    first.len(),
                    second.as_ptr(),
                    second.len(),
                    passes,
                    words,
                    &mut answer,
                );
            }
            let [bench, words] = answer;
            &[first, second][bench][..words]
        }
    };
}

left! {
    /// What is left of a list after so many passes: the part of one of its two slices that counts, so many words or all there are.
    left, aljumeste_left, u32
}
left! {
    /// The same of the positions.
    left_positions, aljumeste_left_positions, f32
}

/// Cuts cubes into simplices: writes triangles and tetrahedra, in rows of four and five words. Answers 0 or the refusal's number; and the
/// sizes of the mesh of simplices, or those stated after a refusal.
pub fn triangulate(
    mesh: Mesh,
    sizes: &Sizes,
    triangles: &mut [u32],
    tetrahedra: &mut [u32],
) -> Told<7> {
    let mut answer = [0; 7];
    // SAFETY: every pointer has its own list's length; a mesh is only read, and the lists written are lent apart from it.
    let number = unsafe {
        aljumeste_triangulate(
            mesh.positions.as_ptr(),
            mesh.positions.len(),
            mesh.marks.as_ptr(),
            mesh.marks.len(),
            mesh.points.as_ptr(),
            mesh.points.len(),
            mesh.lines.as_ptr(),
            mesh.lines.len(),
            mesh.areas.as_ptr(),
            mesh.areas.len(),
            mesh.volumes.as_ptr(),
            mesh.volumes.len(),
            mesh.curves.as_ptr(),
            mesh.curves.len(),
            mesh.steps.as_ptr(),
            mesh.steps.len(),
            sizes,
            triangles.as_mut_ptr(),
            triangles.len(),
            tetrahedra.as_mut_ptr(),
            tetrahedra.len(),
            &mut answer,
        )
    };
    (number, answer)
}

/// The normals in so many dimensions: its name here, and its export.
macro_rules! normals {
    ($(#[$words:meta])* $name:ident, $export:ident) => {
        $(#[$words])*
        pub fn $name(mesh: Mesh, sizes: &Sizes, normals: &mut [f32]) -> u8 {
            extern "C" {
                fn $export(
                    positions: *const f32,
                    positions_words: usize,
                    marks: *const u32,
                    marks_words: usize,
                    points: *const u32,
                    points_words: usize,
                    lines: *const u32,
                    lines_words: usize,
                    areas: *const u32,
                    areas_words: usize,
                    volumes: *const u32,
                    volumes_words: usize,
                    curves: *const u32,
                    curves_words: usize,
                    steps: *const u32,
                    steps_words: usize,
                    sizes: &Sizes,
                    normals: *mut f32,
                    normals_words: usize,
                ) -> u8;
            }
            // SAFETY: as in `triangulate`.
            unsafe {
                $export(
                    mesh.positions.as_ptr(),
                    mesh.positions.len(),
                    mesh.marks.as_ptr(),
                    mesh.marks.len(),
                    mesh.points.as_ptr(),
                    mesh.points.len(),
                    mesh.lines.as_ptr(),
                    mesh.lines.len(),
                    mesh.areas.as_ptr(),
                    mesh.areas.len(),
                    mesh.volumes.as_ptr(),
                    mesh.volumes.len(),
                    mesh.curves.as_ptr(),
                    mesh.curves.len(),
                    mesh.steps.as_ptr(),
                    mesh.steps.len(),
                    sizes,
                    normals.as_mut_ptr(),
                    normals.len(),
                )
            }
        }
    };
}

normals! {
    /// The normals of triangles, three numbers a vertex; Flat is +0 in every place. Answers 0 or the refusal's number.
    compute_normals_3d, aljumeste_compute_normals_3d
}
normals! {
    /// The normals of tetrahedra, four numbers a vertex, on the same terms.
    compute_normals_4d, aljumeste_compute_normals_4d
}

/// Reads a file onto the first bench; of the second the lengths alone count, and each is to be the first's. Answers 0 or the refusal's
/// number; and the kind, 0 cubes or 1 simplices, then the sizes, which are 0 after a refusal.
pub fn read(file: &[u8], first: Bench, second: Mesh) -> Told<8> {
    // Words that no answer has: after a refusal every word is 0, and one that is not written has to show.
    let mut answer = [usize::MAX; 8];
    // SAFETY: every pointer has its own list's length; the first bench is lent for the call, apart from what is only read.
    let number = unsafe {
        aljumeste_read(
            file.as_ptr(),
            file.len(),
            first.positions.as_mut_ptr(),
            first.positions.len(),
            first.marks.as_mut_ptr(),
            first.marks.len(),
            first.points.as_mut_ptr(),
            first.points.len(),
            first.lines.as_mut_ptr(),
            first.lines.len(),
            first.areas.as_mut_ptr(),
            first.areas.len(),
            first.volumes.as_mut_ptr(),
            first.volumes.len(),
            first.curves.as_mut_ptr(),
            first.curves.len(),
            first.steps.as_mut_ptr(),
            first.steps.len(),
            second.positions.as_ptr(),
            second.positions.len(),
            second.marks.as_ptr(),
            second.marks.len(),
            second.points.as_ptr(),
            second.points.len(),
            second.lines.as_ptr(),
            second.lines.len(),
            second.areas.as_ptr(),
            second.areas.len(),
            second.volumes.as_ptr(),
            second.volumes.len(),
            second.curves.as_ptr(),
            second.curves.len(),
            second.steps.as_ptr(),
            second.steps.len(),
            &mut answer,
        )
    };
    (number, answer)
}

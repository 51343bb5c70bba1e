//! The functions of libaljumeste.a as users of Rust link them: those of the crate `aljumeste` over lent lists. Each is defined at every
//! input, so that a call needs no care. Words are lent where they stand; those that are bits of floats become floats for a call.
use crate::{
    case::words_for,
    derived::{Answered, Entry},
    desk::{slices, Desk, Told},
};
use aljumeste::raw;
use reference::{
    memory::{Bench, BOOK_WORDS},
    mesh::{Kind, Sizes},
};
use std::{
    mem,
    time::{Duration, Instant},
};

pub use aljumeste::raw::{normalise_3d, normalise_4d, root};

/// The crate and the reference count the book's cells alike.
const _: () = assert!(raw::BOOK_WORDS == BOOK_WORDS);

pub fn subdivide(kind: Kind, desk: &mut Desk, sizes: &Sizes, depth: u8, smooth_time: u8) -> Told {
    timed_subdivide(kind, desk, sizes, depth, smooth_time).0
}

/// With how long the call itself takes.
pub fn timed_subdivide(
    kind: Kind,
    desk: &mut Desk,
    sizes: &Sizes,
    depth: u8,
    smooth_time: u8,
) -> (Told, Duration) {
    let words = desk.words();
    subdivide_within(kind, desk, &words, sizes, depth, smooth_time)
}

/// Where only so many words of each slice are lent.
pub fn subdivide_within(
    kind: Kind,
    desk: &mut Desk,
    words: &[usize; 19],
    sizes: &Sizes,
    depth: u8,
    smooth_time: u8,
) -> (Told, Duration) {
    let refine = match kind {
        Kind::Simplices => raw::subdivide_simplices,
        Kind::Cubes => raw::subdivide_cubes,
    };
    let Desk {
        first,
        second,
        book,
        sums,
        tallies,
    } = desk;
    let sizes = sizes.list();
    let (mut at, mut other_at, mut totals) = (
        floats(&mut first.pos),
        floats(&mut second.pos),
        floats(sums),
    );
    let ((number, answer), took) = timed(|| {
        let desk = raw::Desk {
            first: lent(first, &mut at, &words[..8]),
            second: lent(second, &mut other_at, &words[8..16]),
            book: &mut book[..words[16]],
            sums: &mut totals[..words[17]],
            tallies: &mut tallies[..words[18]],
        };
        refine(desk, &sizes, depth, smooth_time)
    });
    (first.pos, second.pos, *sums) = (bits(at), bits(other_at), bits(totals));
    (Told { number, answer }, took)
}

/// What a refinement of a kind leaves of each list, as it is handed out for so many passes and these sizes.
pub fn left(kind: Kind, desk: &Desk, passes: usize, sizes: &Sizes) -> Bench {
    let passes = passes as u8;
    let [positions, words @ ..] = words_for(kind, sizes);
    let float = |words: &[u32]| {
        words
            .iter()
            .copied()
            .map(f32::from_bits)
            .collect::<Vec<_>>()
    };
    let (first, second) = (float(&desk.first.pos), float(&desk.second.pos));
    let [_, first_lists @ ..] = slices(&desk.first);
    let [_, second_lists @ ..] = slices(&desk.second);
    let [marks, points, lines, areas, volumes, curves, curve_verts] = std::array::from_fn(|list| {
        raw::left(first_lists[list], second_lists[list], passes, words[list]).to_vec()
    });
    Bench {
        pos: bits(raw::left_positions(&first, &second, passes, positions).to_vec()),
        marks,
        points,
        lines,
        areas,
        volumes,
        curves,
        curve_verts,
    }
}

/// Triangulation or normals, into the lists that are lent for what is written. The mesh is borrowed as if it might change, so that a
/// comparison sees that it doesn't.
pub fn derive(entry: Entry, bench: &mut Bench, sizes: &Sizes, lists: &mut [Vec<u32>]) -> Answered {
    timed_derive(entry, bench, sizes, lists).0
}

/// With how long the call itself takes.
pub fn timed_derive(
    entry: Entry,
    bench: &mut Bench,
    sizes: &Sizes,
    lists: &mut [Vec<u32>],
) -> (Answered, Duration) {
    let mut words = slices(bench).map(Vec::len).to_vec();
    words.extend(lists.iter().map(Vec::len));
    derive_within(entry, bench, &words, sizes, lists)
}

/// Where only so many words of each slice are lent, those of the mesh first.
pub fn derive_within(
    entry: Entry,
    bench: &mut Bench,
    words: &[usize],
    sizes: &Sizes,
    lists: &mut [Vec<u32>],
) -> (Answered, Duration) {
    let sizes = sizes.list();
    let mut at = floats(&mut bench.pos);
    let (own, words) = words.split_at(8);
    let mesh: raw::Mesh = lent(bench, &mut at, own).into();
    let answered = match (entry, lists) {
        (Entry::Triangulation, [triangles, tetrahedra]) => {
            let (triangles, tetrahedra) = (&mut triangles[..words[0]], &mut tetrahedra[..words[1]]);
            let ((number, sizes), took) =
                timed(|| raw::triangulate(mesh, &sizes, triangles, tetrahedra));
            let sizes = Some(sizes);
            (Answered { number, sizes }, took)
        }
        (Entry::Normals3, [normals]) => shade(normals, words[0], |n| {
            raw::compute_normals_3d(mesh, &sizes, n)
        }),
        (Entry::Normals4, [normals]) => shade(normals, words[0], |n| {
            raw::compute_normals_4d(mesh, &sizes, n)
        }),
        (entry, lists) => panic!("{entry:?} writes no {} lists", lists.len()),
    };
    bench.pos = bits(at);
    answered
}

fn shade(
    normals: &mut Vec<u32>,
    words: usize,
    call: impl FnOnce(&mut [f32]) -> u8,
) -> (Answered, Duration) {
    let mut lent = floats(normals);
    let (number, took) = timed(|| call(&mut lent[..words]));
    *normals = bits(lent);
    let sizes = None;
    (Answered { number, sizes }, took)
}

/// Reads a file onto the first bench. File and second bench are borrowed as if they might change, so that a comparison sees that they
/// don't.
pub fn read(file: &mut [u8], first: &mut Bench, second: &mut Bench) -> Told {
    let words = slices(first).map(Vec::len);
    let others = slices(second).map(Vec::len);
    let (mut at, mut other_at) = (floats(&mut first.pos), floats(&mut second.pos));
    let other = lent(second, &mut other_at, &others).into();
    let (number, answer) = raw::read(file, lent(first, &mut at, &words), other);
    (first.pos, second.pos) = (bits(at), bits(other_at));
    Told { number, answer }
}

fn timed<T>(call: impl FnOnce() -> T) -> (T, Duration) {
    let began = Instant::now();
    let told = call();
    (told, began.elapsed())
}

/// So many words of each slice of a bench, with its positions, which are elsewhere for the call.
fn lent<'a>(bench: &'a mut Bench, positions: &'a mut [f32], words: &[usize]) -> raw::Bench<'a> {
    raw::Bench {
        positions: &mut positions[..words[0]],
        marks: &mut bench.marks[..words[1]],
        points: &mut bench.points[..words[2]],
        lines: &mut bench.lines[..words[3]],
        areas: &mut bench.areas[..words[4]],
        volumes: &mut bench.volumes[..words[5]],
        curves: &mut bench.curves[..words[6]],
        steps: &mut bench.curve_verts[..words[7]],
    }
}

/// Words, taken out, as the floats whose bits they are, at the same place.
fn floats(words: &mut Vec<u32>) -> Vec<f32> {
    mem::take(words).into_iter().map(f32::from_bits).collect()
}

fn bits(floats: Vec<f32>) -> Vec<u32> {
    floats.into_iter().map(f32::to_bits).collect()
}

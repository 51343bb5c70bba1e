//! What a caller lends to a refinement, and what it is told.
use crate::draw::LISTS;
use reference::memory::Bench;

/// Two benches, the book and smoothing's cells, as raw words; a position's words are the bits of its floats.
#[derive(Clone, Debug, Default, PartialEq, Eq)]
pub struct Desk {
    pub first: Bench,
    pub second: Bench,
    pub book: Vec<u32>,
    pub sums: Vec<u32>,
    pub tallies: Vec<u32>,
}

impl Desk {
    /// Its slices, in the order in which a refinement takes them.
    pub fn slices(&self) -> [&Vec<u32>; 19] {
        let (first, second) = (slices(&self.first), slices(&self.second));
        let others = [&self.book, &self.sums, &self.tallies];
        std::array::from_fn(|i| match i {
            0..8 => first[i],
            8..16 => second[i - 8],
            _ => others[i - 16],
        })
    }

    #[cfg(test)]
    pub fn slices_mut(&mut self) -> Vec<&mut Vec<u32>> {
        let benches = [slices_mut(&mut self.first), slices_mut(&mut self.second)];
        let others = [&mut self.book, &mut self.sums, &mut self.tallies];
        benches.into_iter().flatten().chain(others).collect()
    }

    /// How many words each of them has.
    pub fn words(&self) -> [usize; 19] {
        self.slices().map(Vec::len)
    }
}

/// The answer's words: the refusal's number, 0 when finished; the passes, or the kind that was read, then the sizes.
#[derive(Copy, Clone, Debug, PartialEq, Eq)]
pub struct Told {
    pub number: u8,
    pub answer: [usize; 8],
}

/// The names of a bench's eight slices: the vertices have two, every other list has one.
pub const SLICES: [&str; 8] = {
    let [_, points, lines, areas, volumes, curves, steps, _] = LISTS;
    [
        "positions",
        "marks",
        points,
        lines,
        areas,
        volumes,
        curves,
        steps,
    ]
};

/// A bench's slices, in that order.
pub fn slices(bench: &Bench) -> [&Vec<u32>; 8] {
    [
        &bench.pos,
        &bench.marks,
        &bench.points,
        &bench.lines,
        &bench.areas,
        &bench.volumes,
        &bench.curves,
        &bench.curve_verts,
    ]
}

pub fn slices_mut(bench: &mut Bench) -> [&mut Vec<u32>; 8] {
    [
        &mut bench.pos,
        &mut bench.marks,
        &mut bench.points,
        &mut bench.lines,
        &mut bench.areas,
        &mut bench.volumes,
        &mut bench.curves,
        &mut bench.curve_verts,
    ]
}

/// For tests: spoils a word, if there is one.
#[cfg(test)]
pub fn flip(word: Option<&mut u32>) {
    if let Some(word) = word {
        *word ^= 1;
    }
}

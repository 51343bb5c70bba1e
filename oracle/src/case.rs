//! What a caller hands to an entry: a mesh on one bench, and what is wrong with it; and one call of a refinement, with all that is lent for
//! it.
use crate::{
    desk::{slices_mut, Desk, SLICES},
    KINDS,
};
use reference::{
    memory::{Bench, Handed, BOOK_WORDS},
    mesh::{Kind, Mesh, Sizes},
    random::Rng,
};
use std::fmt;

/// How many words a row of each slice has.
pub fn row_words(kind: Kind) -> [usize; 8] {
    let [line, area, volume] = kind.corners();
    [4, 3, 1, line + 1, area + 1, volume + 1, 2, 2]
}

/// The words of each slice that are lent for so many cells of each list.
pub fn words_for(kind: Kind, cells: &Sizes) -> [usize; 8] {
    let lists = cells.list();
    let rows = row_words(kind);
    [0, 1, 2, 3, 4, 5, 6, 7].map(|slice| rows[slice] * lists[list_of(slice)])
}

/// The list that a slice belongs to: a vertex has two slices.
pub fn list_of(slice: usize) -> usize {
    slice.saturating_sub(1)
}

/// How benches are unequal that lend as many cells of each list of a kind: by another number of cells in one of the vertices' two slices;
/// by words that are a cell of the other kind; or by words that are no cell of either.
pub const UNEQUAL: [&str; 3] = [
    "as many vertices on unequal benches",
    "unequal benches by the other kind's cells alone",
    "unequal benches by no cell",
];

/// Which of them, if any.
pub fn unequal(kind: Kind, first: [usize; 8], second: [usize; 8]) -> Option<&'static str> {
    let cells = |kind: Kind, words: [usize; 8]| {
        let rows = row_words(kind);
        [0, 1, 2, 3, 4, 5, 6, 7].map(|slice| words[slice] / rows[slice])
    };
    let lent = |words| {
        let [pos, marks, lists @ ..] = cells(kind, words);
        (pos.min(marks), lists)
    };
    if first == second || lent(first) != lent(second) {
        return None;
    }
    let differ = |kind| cells(kind, first) != cells(kind, second);
    Some(match (differ(kind), KINDS.into_iter().any(differ)) {
        (true, _) => UNEQUAL[0],
        (_, true) => UNEQUAL[1],
        _ => UNEQUAL[2],
    })
}

/// A word of the bench that is not the mesh's own.
#[derive(Copy, Clone, Debug)]
pub struct Patch {
    pub slice: usize,
    pub at: usize,
    pub word: u32,
}

/// A mesh on a bench, as a caller hands it in.
#[derive(Clone, Debug)]
pub struct Given {
    pub mesh: Mesh,
    pub patches: Vec<Patch>,
    /// What the caller says of the mesh's sizes.
    pub counts: Sizes,
    /// Lent words of each slice.
    pub words: [usize; 8],
    /// The seed of the words in all cells past the mesh.
    pub fill: u64,
}

impl Given {
    /// A mesh with so many cells of each list, nothing wrong.
    pub fn new(mesh: Mesh, cells: &Sizes) -> Given {
        Given {
            counts: mesh.sizes(),
            patches: vec![],
            words: words_for(mesh.kind, cells),
            mesh,
            fill: 0,
        }
    }

    /// The bench as it is handed in, and the generator of the words in all other lent cells.
    pub fn bench(&self) -> (Bench, Rng) {
        let mut rng = Rng::new(self.fill);
        let mut bench = Bench::lent(self.mesh.kind, &self.mesh.sizes());
        bench.put(&self.mesh);
        for patch in &self.patches {
            if let Some(place) = slices_mut(&mut bench)[patch.slice].get_mut(patch.at) {
                *place = patch.word;
            }
        }
        lengthen(&mut bench, self.words, &mut rng);
        (bench, rng)
    }

    /// The same, as the reference is handed it by an entry of one bench: nothing is wrong with what a refinement would be lent beside it.
    pub fn handed(&self, bench: &Bench) -> Handed {
        let verts = bench.cells(self.mesh.kind).verts;
        Handed {
            kind: self.mesh.kind,
            first: bench.clone(),
            second: bench.clone(),
            book: 0,
            sum: 4 * verts,
            tally: 2 * verts,
            counts: self.counts,
        }
    }
}

/// Brings each slice to its length, with any words in the new cells.
fn lengthen(bench: &mut Bench, words: [usize; 8], rng: &mut Rng) {
    for (slice, length) in slices_mut(bench).into_iter().zip(words) {
        slice.resize_with(length, || rng.draw() as u32);
    }
}

/// A bench of so many words in each slice, any.
pub fn any_bench(rng: &mut Rng, words: [usize; 8]) -> Bench {
    let mut bench = Bench::default();
    lengthen(&mut bench, words, rng);
    bench
}

/// So many cells with any words.
pub fn any_words(rng: &mut Rng, length: usize) -> Vec<u32> {
    (0..length).map(|_| rng.draw() as u32).collect()
}

/// One call of a refinement: the mesh on the first bench.
#[derive(Clone, Debug)]
pub struct Case {
    pub given: Given,
    /// Lent words of the second bench's slices.
    pub second: [usize; 8],
    pub book: usize,
    pub sums: usize,
    pub tallies: usize,
    pub depth: u8,
    pub smooth_time: u8,
}

impl Case {
    /// A mesh with so many cells of each list and of the book, nothing wrong.
    pub fn new(mesh: Mesh, cells: &Sizes, book: usize, depth: u8, smooth_time: u8) -> Case {
        let given = Given::new(mesh, cells);
        Case {
            second: given.words,
            given,
            book: BOOK_WORDS * book,
            sums: 4 * cells.verts,
            tallies: 2 * cells.verts,
            depth,
            smooth_time,
        }
    }

    /// The lent words as the caller hands them in.
    pub fn desk(&self) -> Desk {
        let (first, mut rng) = self.given.bench();
        let second = any_bench(&mut rng, self.second);
        let mut filled = |length: usize| any_words(&mut rng, length);
        Desk {
            first,
            second,
            book: filled(self.book),
            sums: filled(self.sums),
            tallies: filled(self.tallies),
        }
    }

    /// The same, as the reference is handed it.
    pub fn handed(&self, desk: &Desk) -> Handed {
        Handed {
            kind: self.given.mesh.kind,
            first: desk.first.clone(),
            second: desk.second.clone(),
            book: self.book,
            sum: self.sums,
            tally: self.tallies,
            counts: self.given.counts,
        }
    }
}

impl fmt::Display for Case {
    fn fmt(&self, f: &mut fmt::Formatter) -> fmt::Result {
        writeln!(f, "depth {}, smooth_time {}", self.depth, self.smooth_time)?;
        writeln!(
            f,
            "words lent beside the first bench: second {:?}, book {}, sums {}, tallies {}",
            self.second, self.book, self.sums, self.tallies
        )?;
        self.given.fmt(f)
    }
}

impl fmt::Display for Given {
    fn fmt(&self, f: &mut fmt::Formatter) -> fmt::Result {
        let mesh = &self.mesh;
        writeln!(
            f,
            "{:?}, free cells filled from seed {}",
            mesh.kind, self.fill
        )?;
        writeln!(
            f,
            "sizes stated {:?} (vertices, points, lines, areas, volumes, curves, curve vertices)",
            self.counts.list()
        )?;
        writeln!(f, "words lent to the mesh: {:?}", self.words)?;
        for (i, v) in mesh.verts.iter().enumerate() {
            let at = v.bits.map(f32::from_bits);
            writeln!(
                f,
                "vertex {i}: {at:?} flags {} tag {} k {}",
                v.flags, v.tag, v.k
            )?;
        }
        writeln!(f, "points {:?}", mesh.points)?;
        let lists = [
            ("line", &mesh.lines),
            ("area", &mesh.areas),
            ("volume", &mesh.volumes),
        ];
        for (name, list) in lists {
            for e in list {
                writeln!(f, "{name} {:?} parity {}", e.corners, e.parity)?;
            }
        }
        for c in &mesh.curves {
            writeln!(f, "curve tag {} {:?} steps {:?}", c.tag, c.verts, c.steps)?;
        }
        for p in &self.patches {
            writeln!(f, "word {} of {} is {:#x}", p.at, SLICES[p.slice], p.word)?;
        }
        Ok(())
    }
}

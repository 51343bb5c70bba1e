//! The refinements against the original Rust in reference/, which gives every expected answer: the refusal, passes and sizes; every
//! word of every list that is left, positions bit for bit; without a pass, every word of the first bench; and, after a refusal at the door,
//! every lent word. Only what document 01 calls free goes uncompared. Tag and k are not the original's: they are held against the rule of document
//! 02's U3, which the reference has written once more.
use crate::{
    case::{unequal, Case},
    desk::{slices, Desk, Told, SLICES},
    draw::{draw, Drawn},
    exports,
    shrink::{smallest, Shrink},
};
use reference::{
    memory::{Answer, Bench, Ended},
    mesh::{Kind, Mesh, Sizes},
    random::Rng,
};
use std::{collections::BTreeMap, fmt::Display};

/// What refines: the library, or in tests something that goes wrong on purpose.
pub type Engine<'a> = &'a dyn Fn(Kind, &mut Desk, &Sizes, u8, u8) -> Told;

/// How many cases were compared, how many of each class there were, and the smallest one that the two sides differ on.
#[derive(Default)]
pub struct Compared {
    pub cases: u64,
    pub classes: BTreeMap<String, u64>,
    pub apart: Option<String>,
}

/// So many cases of a kind; stops at the first on which the two sides differ.
pub fn compare(engine: Engine, kind: Kind, seed: u64, cases: u64) -> Compared {
    Compared::of(seed, cases, |rng, found| {
        let drawn = draw(rng, kind);
        match differs(&drawn.case, engine) {
            Ok(answer) => count(found, &drawn, &answer),
            Err(_) => found.apart = Some(described(drawn.case, |c| differs(c, engine).err())),
        }
    })
}

/// The library against the reference.
pub fn library(kind: Kind, seed: u64, cases: u64) -> Compared {
    compare(&exports::subdivide, kind, seed, cases)
}

impl Compared {
    /// Tries so many cases, each drawn from the one generator; stops at the first on which the two sides differ.
    pub fn of(seed: u64, cases: u64, mut one: impl FnMut(&mut Rng, &mut Compared)) -> Compared {
        let mut rng = Rng::new(seed);
        let mut found = Compared::default();
        while found.cases < cases && found.apart.is_none() {
            one(&mut rng, &mut found);
            found.cases += 1;
        }
        found
    }

    /// A class was met so many times more.
    pub fn met(&mut self, class: impl Into<String>, times: u64) {
        *self.classes.entry(class.into()).or_default() += times;
    }

    /// How a case without damages was lent, with the answer; or its damages.
    pub fn drawn<T>(&mut self, drawn: &Drawn<T>, number: u8) {
        if drawn.damages.is_empty() {
            self.met(format!("{}: {number}", drawn.lending), 1);
        }
        for damage in &drawn.damages {
            self.met(*damage, 1);
        }
    }

    /// For tests: nothing differs, so many were tried, and every class was met as often as it is wanted.
    #[cfg(test)]
    pub fn is_whole(&self, cases: u64, wanted: impl Iterator<Item = (String, u64)>) {
        if let Some(apart) = &self.apart {
            panic!("{apart}");
        }
        assert_eq!(self.cases, cases);
        let missed: Vec<_> = wanted
            .filter(|(class, least)| self.classes.get(class).is_none_or(|n| n < least))
            .collect();
        assert_eq!(missed, vec![], "met: {:#?}", self.classes);
    }

    pub fn print(&self) {
        for (class, count) in &self.classes {
            println!("{count:8} {class}");
        }
        println!("{} compared", self.cases);
        if let Some(apart) = &self.apart {
            println!("the two sides differ:\n{apart}");
        }
    }
}

fn count(found: &mut Compared, drawn: &Drawn<Case>, answer: &Answer) {
    let number = number(answer.ended);
    let passes = if answer.passes == 0 { "no" } else { "some" };
    found.met(format!("answer {number} after {passes} passes"), 1);
    found.met(format!("depth {}", drawn.case.depth), 1);
    found.drawn(drawn, number);
    let case = &drawn.case;
    if let Some(way) = unequal(case.given.mesh.kind, case.given.words, case.second) {
        found.met(format!("{way}: {number}"), 1);
    }
    let verts = (case.given.words[0] / 4).min(case.given.words[1] / 3);
    let (sums, tallies) = (case.sums / 4, case.tallies / 2);
    if sums != tallies && sums.min(tallies) == verts {
        found.met(format!("{ONE_OF_TWO}: {number}"), 1);
    }
}

const ONE_OF_TWO: &str = "more sums than tallies or fewer, the fewer as many as the vertices";

/// The smallest case that shows what a case shows, and why it does, in words.
pub fn described<T: Shrink + Display>(case: T, why: impl Fn(&T) -> Option<String>) -> String {
    let least = smallest(case, &|c| why(c).is_some());
    let why = why(&least).unwrap_or_default();
    format!("{least}{why}")
}

pub fn number(ended: Ended) -> u8 {
    match ended {
        Ended::Finished => 0,
        Ended::Refused(number) => number,
    }
}

/// Runs both sides on a case: the answer on which they agree, or in words where they first differ.
pub fn differs(case: &Case, engine: Engine) -> Result<Answer, String> {
    let before = case.desk();
    let expected = case
        .handed(&before)
        .subdivide(case.depth, case.smooth_time.into());
    let mut desk = before.clone();
    let kind = case.given.mesh.kind;
    let told = engine(
        kind,
        &mut desk,
        &case.given.counts,
        case.depth,
        case.smooth_time,
    );
    same_answer(&told, &expected)?;
    match &expected.left {
        None => same_desk(&desk, &before)?,
        Some(mesh) => {
            let left = exports::left(kind, &desk, expected.passes, &expected.sizes);
            // Beside a curve's last vertex stands what was handed in, or after a pass 0. The original has no such word.
            let beside = |at: usize| match expected.passes {
                0 => before.first.curve_verts[at],
                _ => 0,
            };
            same_lists(&left, mesh, beside)?;
            if expected.passes == 0 {
                same_bench("the first bench's", &desk.first, &before.first)?;
            }
            // The first bench after an even number of passes, the second after an odd one.
            let bench = [&desk.first, &desk.second][expected.passes % 2];
            for (slice, name) in SLICES.iter().enumerate() {
                let ours = slices(&left)[slice];
                same_words(name, ours, &slices(bench)[slice][..ours.len()])?;
            }
        }
    }
    Ok(expected)
}

fn same_answer(told: &Told, expected: &Answer) -> Result<(), String> {
    let [passes, sizes @ ..] = told.answer;
    let ours = (told.number, passes, sizes);
    let theirs = (
        number(expected.ended),
        expected.passes,
        expected.sizes.list(),
    );
    if ours == theirs {
        return Ok(());
    }
    Err(format!(
        "refusal, passes and sizes are {ours:?}, and by the reference {theirs:?}"
    ))
}

pub fn same_words(name: &str, ours: &[u32], theirs: &[u32]) -> Result<(), String> {
    match ours.iter().zip(theirs).position(|(a, b)| a != b) {
        None if ours.len() == theirs.len() => Ok(()),
        None => Err(format!("{name}: the lengths differ")),
        Some(at) => Err(format!(
            "word {at} of {name} is {:08X}, and by the reference {:08X}",
            ours[at], theirs[at]
        )),
    }
}

/// Every word of a bench is as it was.
pub fn same_bench(bench: &str, after: &Bench, before: &Bench) -> Result<(), String> {
    for (slice, name) in SLICES.iter().enumerate() {
        let name = format!("{bench} {name}");
        same_words(&name, slices(after)[slice], slices(before)[slice])?;
    }
    Ok(())
}

/// Every lent word is as it was.
fn same_desk(after: &Desk, before: &Desk) -> Result<(), String> {
    same_bench("the first bench's", &after.first, &before.first)?;
    same_bench("the second bench's", &after.second, &before.second)?;
    same_words("the book", &after.book, &before.book)?;
    same_words("the sums", &after.sums, &before.sums)?;
    same_words("the tallies", &after.tallies, &before.tallies)
}

/// The words that are left are those of a mesh, and these stand beside the last vertices of its curves.
fn same_lists(left: &Bench, mesh: &Mesh, beside: impl Fn(usize) -> u32) -> Result<(), String> {
    let mut expected = Bench::lent(mesh.kind, &mesh.sizes());
    expected.put(mesh);
    let mut last = 0;
    for curve in &mesh.curves {
        last += curve.verts.len();
        expected.curve_verts[2 * last - 1] = beside(2 * last - 1);
    }
    for (slice, name) in SLICES.iter().enumerate() {
        same_words(name, slices(left)[slice], slices(&expected)[slice])?;
    }
    Ok(())
}

#[cfg(test)]
pub mod tests {
    use super::*;
    use crate::{
        case::UNEQUAL,
        crafted,
        damage::DAMAGES,
        derived::{self, Call, ENTRIES},
        desk::flip,
        draw::{needs, sizes, LISTS},
        reading::{self, Reading},
        KINDS,
    };
    use reference::{
        mesh::{Curve, Element, Vertex, LIMIT},
        model::{Model, Strand},
    };
    use std::cmp::Reverse;

    const CASES: u64 = 20_000;

    /// The classes that no run may miss: every answer, every depth to 4 and the greatest, every way of lending, every damage.
    fn wanted() -> Vec<String> {
        let mut classes: Vec<String> = DAMAGES.iter().map(|d| (*d).into()).collect();
        classes.extend((5..=9).map(|n| format!("answer {n} after no passes")));
        for answer in [
            "0 after no passes",
            "0 after some passes",
            "10 after no passes",
            "10 after some passes",
        ] {
            classes.push(format!("answer {answer}"));
        }
        classes.extend([0, 1, 2, 3, 4, 255].map(|d| format!("depth {d}")));
        for lending in [
            "more than is needed: 0",
            "what is needed: 0",
            "what fewer passes need: 10",
            "a book of any length: 0",
            "a book of any length: 10",
            "fewer passes at a great depth: 0",
            "fewer passes at a great depth: 10",
        ] {
            classes.push(lending.into());
        }
        for (list, name) in LISTS.iter().enumerate() {
            // Points and curves never grow: one short of them is one short of what is handed in.
            let number = if list == 1 || list == 5 { 9 } else { 10 };
            classes.push(format!("one short of {name}: {number}"));
        }
        classes.extend(UNEQUAL.map(|way| format!("{way}: 9")));
        classes.push(format!("{ONE_OF_TWO}: 9"));
        classes
    }

    fn agrees(kind: Kind) {
        let found = library(kind, 1, CASES);
        found.is_whole(CASES, wanted().into_iter().map(|class| (class, 5)));
    }

    #[test]
    fn simplices_are_refined_as_by_the_reference() {
        agrees(Kind::Simplices);
    }

    #[test]
    fn cubes_are_refined_as_by_the_reference() {
        agrees(Kind::Cubes);
    }

    /// A mesh at one place: every entry of every list is about vertex 0.
    pub fn piled(kind: Kind, sizes: &Sizes) -> Mesh {
        let [line, area, volume] = kind.corners();
        let elements = |count: usize, corners: usize| {
            let element = Element {
                corners: vec![0; corners],
                parity: 0,
            };
            vec![element; count]
        };
        let vertex = Vertex {
            bits: [0; 4],
            flags: 0,
            tag: 0,
            k: 0,
        };
        let curve = |verts: usize| Curve {
            tag: 0,
            verts: vec![0; verts],
            steps: vec![0; verts],
        };
        // The first curve is as long as is left when every other has one vertex.
        let lengths = (0..sizes.curves).map(|i| match i {
            0 => sizes.curve_verts + 1 - sizes.curves,
            _ => 1,
        });
        Mesh {
            kind,
            verts: vec![vertex; sizes.verts],
            points: vec![0; sizes.points],
            lines: elements(sizes.lines, line),
            areas: elements(sizes.areas, area),
            volumes: elements(sizes.volumes, volume),
            curves: lengths.map(curve).collect(),
        }
    }

    /// Of each list 1,048,576 entries are accepted, and one more is refused by 10, in memory and in a file: the limit is document 01's.
    #[test]
    fn lists_at_the_limit_and_beyond_are_handed_in() {
        for kind in KINDS {
            for list in 0..7 {
                for (beyond, expected) in [(0, 0), (1, 10)] {
                    let mut cells = [1, 0, 0, 0, 0, usize::from(list > 4), usize::from(list > 4)];
                    cells[list] = LIMIT + beyond;
                    // Every curve has a vertex.
                    cells[6] = cells[6].max(cells[5]);
                    let [verts, points, lines, areas, volumes, curves, curve_verts] = cells;
                    let sizes = Sizes {
                        verts,
                        points,
                        lines,
                        areas,
                        volumes,
                        curves,
                        curve_verts,
                    };
                    let case = Case::new(piled(kind, &sizes), &sizes, 0, 0, 0);
                    let answer = differs(&case, &exports::subdivide).unwrap();
                    assert_eq!(number(answer.ended), expected, "{kind:?}, list {list}");
                    for (name, entry) in ENTRIES.into_iter().filter(|(_, e)| e.kind() == kind) {
                        let call = Call::new(entry, case.given.mesh.clone());
                        let told = derived::differs(&call, &exports::derive);
                        assert_eq!(told, Ok(expected), "{name}, list {list}");
                    }
                    let file = Reading::new(case.given.mesh, &sizes);
                    let told = reading::differs(&file, &exports::read);
                    assert_eq!(told, Ok(expected), "file, {kind:?}, list {list}");
                }
            }
        }
    }

    /// One vertex, lent a cell of its own: a list's two slices of equal lengths are accepted, and others are refused by 9, whatever the kind, by a
    /// refinement as by reading; and so are sums or tallies of another number of cells.
    #[test]
    fn benches_are_held_by_their_lengths() {
        let one = Sizes {
            verts: 1,
            ..Sizes::default()
        };
        for kind in KINDS {
            let case = Case::new(piled(kind, &one), &one, 0, 0, 0);
            let refined = |case: &Case| {
                let answer = differs(case, &exports::subdivide).unwrap();
                number(answer.ended)
            };
            // A slice, and its words on either bench. 20 and 24 words of areas are 4 cells of cubes.
            for (slice, first, second, expected) in [
                (4, 20, 24, 9),
                (4, 24, 24, 0),
                (0, 8, 4, 9),
                (0, 4, 8, 9),
                (0, 8, 8, 0),
                (1, 3, 6, 9),
                (1, 4, 4, 0),
            ] {
                let mut case = case.clone();
                case.given.words[slice] = first;
                case.second[slice] = second;
                let mut file = Reading::new(case.given.mesh.clone(), &one);
                (file.first, file.second) = (case.given.words, case.second);
                let read = reading::differs(&file, &exports::read);
                let name = SLICES[slice];
                assert_eq!(refined(&case), expected, "{name}, {first} and {second}");
                assert_eq!(read, Ok(expected), "file, {name}, {first} and {second}");
            }
            for (sums, tallies, expected) in [
                (4, 2, 0),
                (7, 3, 0),
                (8, 2, 9),
                (4, 4, 9),
                (8, 4, 9),
                (3, 2, 9),
            ] {
                let case = Case {
                    sums,
                    tallies,
                    ..case.clone()
                };
                assert_eq!(refined(&case), expected, "{sums} and {tallies}");
            }
        }
    }

    /// A line or a curve of one place, lent more than the limit: the limit stops it, as document 01 counts.
    #[test]
    fn the_limit_stops_what_the_cells_would_hold() {
        let one = Sizes {
            verts: 1,
            ..Sizes::default()
        };
        let lent = Sizes {
            verts: LIMIT + 9,
            ..Sizes::default()
        };
        let line = Sizes { lines: 1, ..one };
        let curve = Sizes {
            curves: 1,
            curve_verts: 2,
            ..one
        };
        let for_line = Sizes {
            lines: LIMIT + 9,
            ..lent
        };
        let for_curve = Sizes {
            curves: 1,
            curve_verts: LIMIT + 9,
            ..lent
        };
        // After n passes: 2^n lines; 2^n + 1 curve vertices.
        for (sizes, cells, passes) in [(line, for_line, 20), (curve, for_curve, 19)] {
            let mesh = piled(Kind::Simplices, &sizes);
            let case = Case::new(mesh, &cells, LIMIT + 9, 255, 0);
            let answer = differs(&case, &exports::subdivide).unwrap();
            assert_eq!((answer.passes, number(answer.ended)), (passes, 10));
        }
    }

    /// Lines whose pairs crowd one bucket of the book, where its tree is the deepest, and such as once crowded a chain.
    #[test]
    fn crowded_books_are_refined_as_by_the_reference() {
        for kind in KINDS {
            for mesh in [
                crafted::in_one_chain(2_000),
                crafted::in_one_bucket(2_000),
                crafted::deep_in_one_bucket(2_000, 50_000),
            ] {
                let mesh = Mesh { kind, ..mesh };
                let cells = needs(&mesh, 1, true)[1];
                let case = Case::new(mesh, &sizes(&cells), cells[7], 1, 1);
                let answer = differs(&case, &exports::subdivide).unwrap();
                assert_eq!((answer.passes, number(answer.ended)), (1, 0));
            }
        }
    }

    /// The library, and afterwards something is spoiled on the bench that is left, or in the answer.
    fn spoiled(
        spoil: fn(&mut Bench, &mut Told),
    ) -> impl Fn(Kind, &mut Desk, &Sizes, u8, u8) -> Told {
        move |kind, desk, sizes, depth, smooth_time| {
            let mut told = exports::subdivide(kind, desk, sizes, depth, smooth_time);
            spoil(bench_left(desk, told.answer[0]), &mut told);
            told
        }
    }

    /// The bench of the last whole pass.
    fn bench_left(desk: &mut Desk, passes: usize) -> &mut Bench {
        match passes % 2 {
            0 => &mut desk.first,
            _ => &mut desk.second,
        }
    }

    /// A wrong word in any slice, at its first entry or at its last, and a wrong answer, are found.
    #[test]
    fn wrong_refinements_are_noticed() {
        let spoils: [fn(&mut Bench, &mut Told); 15] = [
            |b, _| flip(b.pos.first_mut()),
            |b, t| flip(b.pos.get_mut((4 * t.answer[1]).wrapping_sub(1))),
            |b, t| flip(b.marks.get_mut((3 * t.answer[1]).wrapping_sub(1))),
            |b, t| flip(b.marks.get_mut((3 * t.answer[1]).wrapping_sub(2))),
            |b, t| flip(b.marks.get_mut((3 * t.answer[1]).wrapping_sub(3))),
            |b, t| flip(b.points.get_mut(t.answer[2].wrapping_sub(1))),
            |b, t| flip(b.lines.get_mut((3 * t.answer[3]).wrapping_sub(1))),
            |b, _| flip(b.areas.first_mut()),
            |b, _| flip(b.volumes.first_mut()),
            |b, t| flip(b.curves.get_mut((2 * t.answer[6]).wrapping_sub(2))),
            |b, _| flip(b.curve_verts.first_mut()),
            |b, t| flip(b.curve_verts.get_mut((2 * t.answer[7]).wrapping_sub(1))),
            |_, t| t.number ^= u8::from(t.number == 10),
            |_, t| t.answer[0] += usize::from(t.number == 10),
            |_, t| t.answer[7] += usize::from(t.number == 0),
        ];
        for (i, spoil) in spoils.into_iter().enumerate() {
            let found = compare(&spoiled(spoil), Kind::Simplices, 1, 1_000);
            assert!(found.apart.is_some(), "{i} goes unnoticed");
        }
    }

    /// The library, and afterwards every vertex that is left has its tag and k by another rule than U3's.
    fn by_rule(strand: Strand) -> impl Fn(Kind, &mut Desk, &Sizes, u8, u8) -> Told {
        move |kind, desk, counts, depth, smooth_time| {
            let before = desk.first.clone();
            let told = exports::subdivide(kind, desk, counts, depth, smooth_time);
            if told.number == 0 || told.number == 10 {
                let [passes, left @ ..] = told.answer;
                let bench = bench_left(desk, passes);
                let mut refined = bench.mesh(kind, &sizes(&left));
                Model::by(&before.mesh(kind, counts), strand).put_strands(passes, &mut refined);
                for (marks, vertex) in bench.marks.chunks_mut(3).zip(&refined.verts) {
                    marks[1..].copy_from_slice(&[vertex.tag, vertex.k]);
                }
            }
            told
        }
    }

    /// Each way to get U3 wrong is found: the first end, as the original has it; the greater k; the second end on a tie; k with a sign; the tag of one end
    /// with the k of the other. And the rule itself is no wrong way.
    #[test]
    fn wrong_strands_are_noticed() {
        let wrong: [Strand; 5] = [
            |a, _| [a.tag, a.k],
            |a, b| least(a, b, |end| Reverse(end.k)),
            |a, b| least(b, a, |end| end.k),
            |a, b| least(a, b, |end| end.k as i32),
            |a, b| [a.tag, a.k.min(b.k)],
        ];
        for kind in KINDS {
            for (i, strand) in wrong.into_iter().enumerate() {
                let found = compare(&by_rule(strand), kind, 1, 1_000);
                assert!(found.apart.is_some(), "{kind:?}: {i} goes unnoticed");
            }
            let right = |a: &Vertex, b: &Vertex| least(a, b, |end| end.k);
            assert_eq!(compare(&by_rule(right), kind, 1, 1_000).apart, None);
        }
    }

    /// Tag and k of the end with the least key, the first of two that are equal.
    fn least<K: Ord>(a: &Vertex, b: &Vertex, key: impl Fn(&Vertex) -> K) -> [u32; 2] {
        let end = if key(b) < key(a) { b } else { a };
        [end.tag, end.k]
    }

    /// A refusal at the door that leaves its mark on a free cell is found.
    #[test]
    fn a_write_at_the_door_is_noticed() {
        let writes = |kind: Kind, desk: &mut Desk, sizes: &Sizes, depth: u8, smooth_time: u8| {
            let told = exports::subdivide(kind, desk, sizes, depth, smooth_time);
            flip(desk.tallies.last_mut());
            told
        };
        assert!(compare(&writes, Kind::Simplices, 1, 1_000).apart.is_some());
    }

    /// What shows a fault is made as small as it can be: a fault of volumes after a pass is shown by one volume and one pass.
    #[test]
    fn the_smallest_case_is_found() {
        let fault = |kind: Kind, desk: &mut Desk, sizes: &Sizes, depth: u8, smooth_time: u8| {
            let mut told = exports::subdivide(kind, desk, sizes, depth, smooth_time);
            if told.number == 0 && told.answer[0] > 0 && sizes.volumes > 0 {
                told.answer[0] += 1;
            }
            told
        };
        let mut rng = Rng::new(1);
        let case = std::iter::repeat_with(|| draw(&mut rng, Kind::Simplices).case)
            .find(|case| differs(case, &fault).is_err())
            .unwrap();
        let least = smallest(case, &|c| differs(c, &fault).is_err());
        let sizes = least.given.mesh.sizes();
        assert_eq!(
            (least.depth, sizes.volumes, sizes.lines, sizes.areas),
            (1, 1, 0, 0)
        );
        assert_eq!((sizes.points, sizes.curves), (0, 0));
    }
}

//! Worked meshes: worked/*.txt have cases whose answers follow from document 01, and from document 02 where it changes tag and k (U3) or has every parity
//! changed (U5), with the sentence beside each, worked out by hand or by a separate calculation. Both the library and the reference are held to them.
use crate::{
    case::{row_words, words_for, Given},
    derived::{Answered, Call, Entry},
    desk::{slices_mut, Desk},
    draw, exports,
    refinement::number,
};
use reference::{
    memory::{Bench, Handed, BOOK_WORDS},
    mesh::{Kind, Mesh, Sizes},
};
use std::{fmt::Write, fs, vec};

/// What stands in cells that no word was laid in. No case has it.
const BLANK: u32 = 0xEEEE_EEEE;
/// A list of more entries has no words in a case.
const FEW: usize = 8_192;
/// So many cells stand behind those that are lent, and have to stay as they are.
const PAST: usize = 64;

/// A case: its name, its words in order, and what is answered.
struct Worked {
    name: String,
    words: vec::IntoIter<u32>,
    expected: String,
}

fn worked(file: &str) -> Vec<Worked> {
    let path = format!("{}/worked/{file}", env!("CARGO_MANIFEST_DIR"));
    let text = fs::read_to_string(path).expect("worked cases");
    text.split("\n= ").skip(1).map(Worked::new).collect()
}

impl Worked {
    /// The name up to the end of its line; then words, remarks after #, and lines of the answer after >.
    fn new(text: &str) -> Worked {
        let (name, text) = text.split_once('\n').expect("words behind the name");
        let (mut words, mut expected) = (vec![], String::new());
        for line in text.lines() {
            match line.strip_prefix("> ") {
                Some(line) => expected += &format!("{line}\n"),
                None => words.extend(
                    line.split('#')
                        .take(1)
                        .flat_map(str::split_whitespace)
                        .map(word),
                ),
            }
        }
        Worked {
            name: name.into(),
            words: words.into_iter(),
            expected,
        }
    }

    fn word(&mut self) -> u32 {
        self.words.next().expect("one word more")
    }

    fn size(&mut self) -> usize {
        self.word() as usize
    }

    fn sizes(&mut self) -> Sizes {
        draw::sizes(&[(); 7].map(|()| self.size()))
    }

    /// The mesh's words on a bench, and nothing behind them. All words of the case are used then.
    fn bench(&mut self, kind: Kind, sizes: &Sizes) -> Bench {
        let mut bench = Bench::default();
        let [positions, marks, lists @ ..] = words_for(kind, &few(sizes));
        for _ in 0..positions / 4 {
            bench.pos.extend(self.words.by_ref().take(4));
            bench.marks.extend(self.words.by_ref().take(3));
        }
        for (slice, words) in slices_mut(&mut bench).into_iter().skip(2).zip(lists) {
            slice.extend(self.words.by_ref().take(words));
        }
        assert_eq!(
            (bench.marks.len(), self.words.next()),
            (marks, None),
            "{}",
            self.name
        );
        bench
    }
}

/// A decimal number, or x and eight hexadecimal digits.
fn word(token: &str) -> u32 {
    let word = match token.strip_prefix('x') {
        Some(bits) => u32::from_str_radix(bits, 16),
        None => token.parse(),
    };
    word.unwrap_or_else(|_| panic!("{token} is no word"))
}

/// The sizes of the lists that have their words in a case.
fn few(sizes: &Sizes) -> Sizes {
    draw::sizes(&sizes.list().map(|n| if n > FEW { 0 } else { n }))
}

/// Blank cells behind what a slice has, up to those that are lent and past them.
fn pad(slice: &mut Vec<u32>, lent: usize) {
    slice.resize(slice.len().max(lent) + PAST, BLANK);
}

/// So many words of each slice.
fn cut(bench: &Bench, words: &[usize]) -> Bench {
    let mut bench = bench.clone();
    for (slice, words) in slices_mut(&mut bench).into_iter().zip(words) {
        slice.truncate(*words);
    }
    bench
}

/// The slice of a number, from 1 on, is lent at a length of its own.
fn lend([slice, length]: [usize; 2], words: &mut [usize]) {
    if slice > 0 {
        words[slice - 1] = length;
    }
}

fn ended(number: u8) -> String {
    match number {
        0 => "finished".into(),
        _ => format!("refused {number}"),
    }
}

const UNCHANGED: &str = ", nothing changed\n";

/// The sizes that aren't 0, each after its list's letter; w are the curve vertices.
fn counts(sizes: &[usize; 7]) -> String {
    let lists = sizes.iter().zip("vplascw".chars());
    let named = lists.filter(|(n, _)| **n > 0);
    let counts: String = named.map(|(n, letter)| format!(" {letter} {n}")).collect();
    format!(":{counts}\n")
}

fn letter(parity: u32) -> &'static str {
    if parity == 0 {
        " e"
    } else {
        " o"
    }
}

/// Lines, areas or volumes: vertex numbers, then e or o.
fn elements(name: char, words: &[u32], row: usize) -> String {
    let mut text = String::new();
    for row in words.chunks(row) {
        let (parity, corners) = row.split_last().expect("a word");
        text.push(name);
        corners.iter().for_each(|c| write!(text, " {c}").unwrap());
        text += letter(*parity);
        text.push('\n');
    }
    text
}

fn bits(words: &[u32]) -> String {
    words.iter().map(|b| format!(" {b:08X}")).collect()
}

/// A mesh that is left on a bench, whose slices have its words and nothing else.
fn mesh(kind: Kind, bench: &Bench) -> String {
    let mut text = String::new();
    for (i, (at, marks)) in bench.pos.chunks(4).zip(bench.marks.chunks(3)).enumerate() {
        let marks: String = marks.iter().map(|m| format!(" {m}")).collect();
        writeln!(text, "v {i}{}{marks}", bits(at)).unwrap();
    }
    for point in &bench.points {
        writeln!(text, "p {point}").unwrap();
    }
    let [.., lines, areas, volumes, _, _] = row_words(kind);
    text += &elements('l', &bench.lines, lines);
    text += &elements('a', &bench.areas, areas);
    text += &elements('s', &bench.volumes, volumes);
    let mut steps = bench.curve_verts.chunks(2);
    for curve in bench.curves.chunks(2) {
        write!(text, "c {}:", curve[0]).unwrap();
        let steps: Vec<&[u32]> = steps.by_ref().take(curve[1] as usize).collect();
        for (i, step) in steps.iter().enumerate() {
            let parity = if i + 1 < steps.len() {
                letter(step[1])
            } else {
                ""
            };
            write!(text, " {}{parity}", step[0]).unwrap();
        }
        text.push('\n');
    }
    text
}

/// A refinement's case: what the library answers, and what the reference does.
fn refined(case: &mut Worked) -> [String; 2] {
    let apart = [case.size(), case.size()];
    let kind = match case.word() {
        0 => Kind::Cubes,
        _ => Kind::Simplices,
    };
    let [depth, smooth_time] = [case.word() as u8, case.word() as u8];
    let (lent, book, sizes) = (case.sizes(), case.size(), case.sizes());
    let mut words = [0; 19];
    words[..8].copy_from_slice(&words_for(kind, &lent));
    words.copy_within(..8, 8);
    words[16..].copy_from_slice(&[BOOK_WORDS * book, 4 * lent.verts, 2 * lent.verts]);
    lend(apart, &mut words);
    let mut desk = Desk {
        first: case.bench(kind, &sizes),
        ..Desk::default()
    };
    for (slice, words) in desk.slices_mut().into_iter().zip(words) {
        pad(slice, words);
    }
    let before = desk.clone();
    let told = exports::subdivide_within(kind, &mut desk, &words, &sizes, depth, smooth_time).0;
    stays(&case.name, &before.slices(), &desk.slices(), &words);
    let [passes, left @ ..] = told.answer;
    let ours = if (1..10).contains(&told.number) {
        assert_eq!((&desk, left), (&before, sizes.list()), "{}", case.name);
        None
    } else {
        // The first bench after an even number of passes, the second after an odd one.
        let bench = [&desk.first, &desk.second][passes % 2];
        Some(cut(bench, &words_for(kind, &draw::sizes(&left))))
    };
    let handed = Handed {
        kind,
        first: cut(&before.first, &words[..8]),
        second: cut(&before.second, &words[8..16]),
        book: words[16],
        sum: words[17],
        tally: words[18],
        counts: sizes,
    };
    let theirs = handed.subdivide(depth, smooth_time.into());
    let mesh = theirs.left.map(|mesh| {
        let mut bench = Bench::lent(kind, &mesh.sizes());
        bench.put(&mesh);
        bench
    });
    let sizes = theirs.sizes.list();
    [
        refinement(kind, told.number, passes, &left, ours),
        refinement(kind, number(theirs.ended), theirs.passes, &sizes, mesh),
    ]
}

/// How it ended, after how many passes, and the mesh of the last whole pass, if it came past the door.
fn refinement(
    kind: Kind,
    number: u8,
    passes: usize,
    sizes: &[usize; 7],
    left: Option<Bench>,
) -> String {
    let end = format!("{} after {passes}", ended(number));
    match left {
        None => end + UNCHANGED,
        Some(bench) => end + &counts(sizes) + &mesh(kind, &bench),
    }
}

/// The cells past those that are lent are as they were.
fn stays(name: &str, before: &[&Vec<u32>], after: &[&Vec<u32>], lent: &[usize]) {
    for ((before, after), lent) in before.iter().zip(after).zip(lent) {
        assert!(
            before[*lent..] == after[*lent..],
            "{name}: past what is lent"
        );
    }
}

/// A case of triangulation or normals: the same.
fn derived(case: &mut Worked) -> [String; 2] {
    let apart = [case.size(), case.size()];
    let entry = match case.word() {
        0 => Entry::Triangulation,
        3 => Entry::Normals3,
        _ => Entry::Normals4,
    };
    let (lent, cells, sizes) = (case.sizes(), [case.size(), case.size()], case.sizes());
    let rows = entry.lists().iter().map(|(_, row)| row);
    let mut words = words_for(entry.kind(), &lent).to_vec();
    words.extend(rows.zip(cells).map(|(row, cells)| row * cells));
    lend(apart, &mut words);
    let mut bench = case.bench(entry.kind(), &sizes);
    let mut lists = vec![vec![]; entry.lists().len()];
    let slices_and_lists = slices_mut(&mut bench).into_iter().chain(&mut lists);
    for (slice, words) in slices_and_lists.zip(&words) {
        pad(slice, *words);
    }
    let (mesh, blank) = (bench.clone(), lists.clone());
    let told = exports::derive_within(entry, &mut bench, &words, &sizes, &mut lists).0;
    assert_eq!(bench, mesh, "{}", case.name);
    let call = Call {
        entry,
        given: Given {
            counts: sizes,
            ..Given::new(Mesh::empty(entry.kind()), &Sizes::default())
        },
        lent: vec![],
    };
    let lent = blank.iter().zip(&words[8..]);
    let lent: Vec<Vec<u32>> = lent.map(|(list, n)| list[..*n].to_vec()).collect();
    let (due, theirs) = call.due(&cut(&mesh, &words), &lent);
    [
        derivation(entry, &told, &sizes, &lists),
        derivation(entry, &due, &sizes, &theirs),
    ]
}

/// How it ended, and what was written. No other cell was, and after a refusal none.
fn derivation(entry: Entry, told: &Answered, stated: &Sizes, lists: &[Vec<u32>]) -> String {
    let sizes = told.sizes.unwrap_or(stated.list());
    let entries = match (told.number, entry) {
        (0, Entry::Triangulation) => vec![sizes[3], sizes[4]],
        (0, _) => vec![sizes[0]],
        _ => vec![0; lists.len()],
    };
    let rows = entry.lists().iter().map(|(_, row)| *row);
    let mut text = ended(told.number);
    match (told.number, entry) {
        (0, Entry::Triangulation) => text += &counts(&sizes),
        (0, _) => text.push('\n'),
        _ => {
            assert_eq!(sizes, stated.list());
            text += UNCHANGED;
        }
    }
    for (((list, row), entries), name) in lists.iter().zip(rows).zip(entries).zip(['a', 's']) {
        let (written, rest) = list.split_at(row * entries);
        assert!(
            rest.iter().all(|w| *w == BLANK),
            "a cell past what is written"
        );
        match entry {
            Entry::Triangulation => text += &elements(name, written, row),
            _ => text += &normals(written, row),
        }
    }
    text
}

/// n: number, and the bits of the components.
fn normals(words: &[u32], row: usize) -> String {
    let rows = words.chunks(row).enumerate();
    rows.map(|(i, row)| format!("n {i}{}\n", bits(row)))
        .collect()
}

/// Every case of a file: the library's answer and the reference's are the expected one.
fn replayed(file: &str, count: usize, both: fn(&mut Worked) -> [String; 2]) {
    let cases = worked(file);
    assert_eq!(cases.len(), count);
    for mut case in cases {
        for (whose, answer) in ["the library", "the reference"]
            .into_iter()
            .zip(both(&mut case))
        {
            assert_eq!(answer, case.expected, "{}: {whose}", case.name);
        }
    }
}

#[test]
fn refinements_are_those_worked_out() {
    replayed("refinements.txt", 180, refined);
}

#[test]
fn triangulations_and_normals_are_those_worked_out() {
    replayed("shadings.txt", 181, derived);
}

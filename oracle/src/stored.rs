//! What the program `replay` reads, and what it must print: files of document 01's section 8 with the answers of the original Rust, tag and k by document 02's
//! U3.
//! crates/replay/src/main.rt says how a file is stored.
use crate::{
    case::row_words,
    derived::Entry,
    desk::slices,
    draw::{sizes, Drawn, LISTS},
    refinement::number,
    sheet::{draw, Input},
};
use reference::{
    file::decode,
    memory::{subdivided, triangulated, Answer, Bench, Handed, BOOK_WORDS},
    mesh::{Kind, Lent, Mesh},
    random::Rng,
};
use std::collections::BTreeMap;

const SEED: u64 = 7;
/// Of so many inputs that are drawn, two of each class, and one where something is wrong, are taken whose file is short and
/// for which little is printed.
const DRAWN: u32 = 60_000;
const EACH: u32 = 2;
const EACH_WRONG: u32 = 1;
const MOST_BYTES: usize = 500;
const MOST_PRINTED: usize = 1_500;

/// The words that `replay` lends: to each slice of a bench; to the book; to triangles and tetrahedra; to normals. So few that each of them
/// is too little for a small mesh.
const BENCH: [usize; 8] = [128, 96, 12, 48, 80, 180, 24, 36];
const BOOK: usize = 144;
const PIECES: [usize; 2] = [120, 300];
const NORMALS: usize = 48;

/// The files, and what is printed for them.
#[derive(Default)]
pub struct Stored {
    pub files: Vec<u8>,
    pub answers: String,
}

pub fn stored() -> Stored {
    let mut rng = Rng::new(SEED);
    let mut taken: BTreeMap<String, u32> = BTreeMap::new();
    let mut stored = Stored::default();
    for _ in 0..DRAWN {
        let drawn = draw(&mut rng, |kind| lent(kind).lists).0;
        let (input, replayed) = (&drawn.case, Replayed::of(&drawn.case));
        let small = input.bytes().len() <= MOST_BYTES && replayed.text.len() <= MOST_PRINTED;
        if !small || input.most < usize::MAX {
            continue;
        }
        let class = class(&drawn, &replayed);
        let count = taken.entry(class.clone()).or_default();
        *count += 1;
        let most = if drawn.damages.is_empty() {
            EACH
        } else {
            EACH_WRONG
        };
        if *count <= most {
            stored.put(&class, input, &replayed.text);
        }
    }
    stored
}

impl Stored {
    fn put(&mut self, class: &str, input: &Input, text: &str) {
        let (name, file) = (format!("= {class}"), input.written.bytes());
        let [high, low] = (file.len() as u16).to_be_bytes();
        let head = [name.len() as u8, input.depth, input.smooth_time, high, low];
        self.files.extend(head);
        self.files.extend(name.as_bytes());
        self.files.extend(file);
        self.answers += &format!("{name}{text}\n");
    }
}

/// What an input is a case of.
fn class(drawn: &Drawn<Input>, replayed: &Replayed) -> String {
    let kind = format!("{:?}", drawn.case.written.mesh.kind).to_lowercase();
    match drawn.damages[..] {
        [] => format!("{kind}, {}", replayed.met),
        [damage] => format!("{kind}, {damage}: {}", replayed.ended),
        _ => format!("{kind}, with another thing wrong: {}", replayed.ended),
    }
}

/// What an input comes to: how it ended; in words what was met on the way; and what is printed.
struct Replayed {
    ended: String,
    met: String,
    text: String,
}

impl Replayed {
    fn of(input: &Input) -> Replayed {
        let file = input.written.bytes();
        let kind = match file.get(1) {
            Some(1) => Kind::Simplices,
            _ => Kind::Cubes,
        };
        let mesh = match decode(&file, &lent(kind).lists) {
            Ok(mesh) => mesh,
            Err(number) => {
                let ended = ended(number);
                return Replayed {
                    met: ended.clone(),
                    text: format!("\nfile {ended}"),
                    ended,
                };
            }
        };
        let answer =
            Handed::lend(&mesh, &lent(kind)).subdivide(input.depth, input.smooth_time.into());
        let ended = ended(number(answer.ended));
        let mut text = format!("\nrefinement {ended} after {}", answer.passes);
        let short = print(&mut text, answer.left.as_ref().unwrap_or(&mesh));
        let met = met(input, &mesh, &answer, short);
        Replayed { ended, met, text }
    }
}

/// The cells that a mesh of a kind is lent.
fn lent(kind: Kind) -> Lent {
    let rows = row_words(kind);
    // Of the vertices' two slices, positions and marks have as many.
    let slices = [0, 2, 3, 4, 5, 6, 7];
    Lent {
        lists: sizes(&slices.map(|slice| BENCH[slice] / rows[slice])),
        book: BOOK / BOOK_WORDS,
    }
}

fn ended(number: u8) -> String {
    match number {
        0 => "finished".into(),
        _ => format!("refused {number}"),
    }
}

/// What has no cells for a pass; or how deep, with the highest kind of element or with what has no cells afterwards.
fn met(input: &Input, mesh: &Mesh, answer: &Answer, after: Option<&str>) -> String {
    if number(answer.ended) == 10 {
        let next = subdivided(mesh, answer.passes as u8 + 1, input.smooth_time == 1).sizes();
        let lent = lent(mesh.kind);
        let mut short = next.list().to_vec();
        short.push(next.verts - mesh.verts.len());
        let cells = lent.lists.list().into_iter().chain([lent.book]);
        let short = short.iter().zip(cells).zip(LISTS);
        let mut short = short.filter(|((entries, cells), _)| *entries > cells);
        let when = if answer.passes == 0 {
            "at once"
        } else {
            "after a pass"
        };
        return match (short.next(), short.next()) {
            (Some((_, name)), None) => format!("10 {when}, {name}"),
            _ => format!("10 {when}, more than one list"),
        };
    }
    let lists = [
        (mesh.volumes.len(), "volumes"),
        (mesh.areas.len(), "areas"),
        (mesh.lines.len(), "lines"),
        (mesh.curves.len(), "curves"),
    ];
    let highest = lists.into_iter().find(|(entries, _)| *entries > 0);
    let highest = highest.map_or("nothing to refine", |(_, name)| name);
    let highest = after.unwrap_or(highest);
    match input.depth {
        0..=4 => format!("depth {}, {highest}", input.depth),
        _ => format!("a great depth, {highest}"),
    }
}

/// Prints a mesh: its lists, the simplices that cubes are cut into, and the normals of simplices. Answers in words what there are no cells for.
fn print(text: &mut String, mesh: &Mesh) -> Option<&'static str> {
    let bench = bench(mesh);
    let (lists, widths) = (slices(&bench), row_words(mesh.kind));
    rows(text, "v", lists[0], 4, bits);
    for (name, slice) in NAMES {
        rows(text, name, lists[slice], widths[slice], word);
    }
    if mesh.kind == Kind::Simplices {
        return shade(text, mesh);
    }
    let cut = triangulated(mesh);
    let [triangles, tetrahedra] = PIECES;
    if cut.areas.len() > triangles / 4 || cut.volumes.len() > tetrahedra / 5 {
        *text += "\ntriangulation refused 10";
        return Some("too many pieces");
    }
    *text += "\ntriangulation finished";
    let pieces = self::bench(&cut);
    rows(text, "a", &pieces.areas, 4, word);
    rows(text, "s", &pieces.volumes, 5, word);
    shade(text, &cut)
}

const NAMES: [(&str, usize); 7] = [
    ("m", 1),
    ("p", 2),
    ("l", 3),
    ("c", 6),
    ("w", 7),
    ("a", 4),
    ("s", 5),
];

/// The normals of simplices, in three dimensions and in four.
fn shade(text: &mut String, simplices: &Mesh) -> Option<&'static str> {
    let mut short = None;
    for (entry, width) in [(Entry::Normals3, 3), (Entry::Normals4, 4)] {
        let normals = entry.made(simplices).words.concat();
        if normals.len() > NORMALS {
            *text += "\nnormals refused 10";
            short = Some("too many normals");
        } else {
            *text += "\nnormals finished";
            rows(text, "n", &normals, width, bits);
        }
    }
    short
}

/// The words of a mesh and no others.
fn bench(mesh: &Mesh) -> Bench {
    let mut bench = Bench::lent(mesh.kind, &mesh.sizes());
    bench.put(mesh);
    bench
}

fn word(word: &u32) -> String {
    format!(" {word}")
}

fn bits(word: &u32) -> String {
    format!(" {word:08X}")
}

/// Each row on a line, its name first.
fn rows(text: &mut String, name: &str, words: &[u32], width: usize, token: fn(&u32) -> String) {
    for row in words.chunks(width) {
        *text += &format!("\n{name}{}", row.iter().map(token).collect::<String>());
    }
}

#[cfg(test)]
mod tests {
    use super::*;
    use crate::written::Written;
    use reference::mesh::{Element, Vertex};

    /// Every depth, every refusal that a file can come to, and every list that can be too short for a pass; in no more bytes than the program
    /// has room for.
    #[test]
    fn every_answer_is_stored() {
        let Stored { files, answers } = stored();
        assert!(files.len() <= 131_072, "{} bytes", files.len());
        assert!(answers.len() < 200_000, "{} bytes", answers.len());
        let mut classes: Vec<String> = (0..=4).map(|depth| format!(", depth {depth}, ")).collect();
        classes.extend([1, 2, 3, 4, 5, 6, 7, 8, 10].map(|n| format!(": refused {n}\n")));
        // Points and curves never grow.
        let grow = [0, 2, 3, 4, 6, 7].map(|list| LISTS[list]);
        classes.extend(grow.map(|list| format!(", 10 at once, {list}\n")));
        classes.extend(
            grow[1..]
                .iter()
                .map(|list| format!(", 10 after a pass, {list}\n")),
        );
        classes.extend(["a great depth, ", "too many normals\n"].map(String::from));
        for kind in ["cubes", "simplices"] {
            let own: Vec<&str> = answers.split(&format!("= {kind}")).skip(1).collect();
            let missed = classes
                .iter()
                .filter(|class| !own.iter().any(|text| text.contains(*class)));
            assert_eq!(missed.collect::<Vec<_>>(), Vec::<&String>::new(), "{kind}");
        }
        assert!(answers.contains("\ntriangulation refused 10\n"));
    }

    /// P3 of document 01: line [0,0] of simplices, depth 1, gives vertex 1 and lines [0,1], [1,0].
    #[test]
    fn the_text_of_a_file() {
        let mesh = Mesh {
            verts: vec![Vertex {
                bits: [0x3F80_0000, 0, 0, 0],
                flags: 15,
                tag: 8,
                k: 9,
            }],
            lines: vec![Element {
                corners: vec![0, 0],
                parity: 1,
            }],
            ..Mesh::empty(Kind::Simplices)
        };
        let input = Input {
            depth: 1,
            smooth_time: 0,
            written: Written {
                mesh,
                edits: vec![],
            },
            most: usize::MAX,
        };
        let replayed = Replayed::of(&input);
        assert_eq!(replayed.met, "depth 1, lines");
        let vertex = "\nv 3F800000 00000000 00000000 00000000";
        let flat = "\nn 00000000 00000000 00000000";
        let expected = format!(
            "\nrefinement finished after 1{vertex}{vertex}\nm 15 8 9\nm 15 8 9\nl 0 1 1\nl 1 0 1\
             \nnormals finished{flat}{flat}\nnormals finished{flat} 00000000{flat} 00000000"
        );
        assert_eq!(replayed.text, expected);
        let mut stored = Stored::default();
        stored.put("a line", &input, "");
        let file = input.written.bytes();
        let mut expected = vec![8, 1, 0, 0, file.len() as u8];
        expected.extend(b"= a line");
        expected.extend(file);
        assert_eq!(stored.files, expected);
    }
}

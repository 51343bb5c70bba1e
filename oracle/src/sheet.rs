//! The program `sheet` against the same in reference/, byte for byte: what it prints for its standard input.
use crate::{
    draw::{damages, Drawn},
    program::printed,
    refinement::{described, Compared},
    shrink::Shrink,
    spoil::{self, first_due, spoil, Due, SPOILS},
    written::Written,
    KINDS,
};
use reference::{
    mesh::{Kind, Sizes},
    random::{self, Bounds, Rng},
    sheet::{Sheet, CELLS},
};
use std::fmt;

/// What prints: the program, or in tests something that goes wrong on purpose.
pub type Engine<'a> = &'a dyn Fn(&[u8]) -> Result<String, String>;

/// One input.
#[derive(Clone, Debug)]
pub struct Input {
    pub depth: u8,
    pub smooth_time: u8,
    pub written: Written,
    /// So many bytes and no more.
    pub most: usize,
}

impl Input {
    pub fn bytes(&self) -> Vec<u8> {
        let mut bytes = vec![self.depth, self.smooth_time];
        bytes.extend(self.written.bytes());
        bytes.truncate(self.most);
        bytes
    }
}

impl fmt::Display for Input {
    fn fmt(&self, f: &mut fmt::Formatter) -> fmt::Result {
        writeln!(
            f,
            "depth {}, smooth_time {}, {} bytes in all",
            self.depth,
            self.smooth_time,
            self.bytes().len()
        )?;
        self.written.fmt(f)
    }
}

/// Less deep, or with a smaller file.
impl Shrink for Input {
    fn smaller(&self) -> Vec<Input> {
        let mut found = vec![];
        for depth in [self.depth / 2, self.depth.saturating_sub(1)] {
            if depth < self.depth {
                found.push(Input {
                    depth,
                    ..self.clone()
                });
            }
        }
        if self.smooth_time > 0 {
            found.push(Input {
                smooth_time: 0,
                ..self.clone()
            });
        }
        found.extend(self.written.smaller().into_iter().map(|written| Input {
            written,
            ..self.clone()
        }));
        found
    }
}

/// So many inputs; stops at the first on which the two sides differ, or for which the reference has another answer than the one that
/// is due by the way the input was made.
pub fn compare(engine: Engine, seed: u64, cases: u64) -> Compared {
    Compared::of(seed, cases, |rng, found| {
        let (drawn, refusal) = draw(rng, |_| Sizes::all(CELLS));
        match differs(&drawn.case, engine) {
            Ok(listing) => match wrong(&drawn.case, refusal, &listing) {
                None => count(found, &drawn, &listing),
                wrong => found.apart = wrong,
            },
            Err(_) => found.apart = Some(described(drawn.case, |c| differs(c, engine).err())),
        }
    })
}

/// The program against the reference.
pub fn program(seed: u64, cases: u64) -> Compared {
    compare(&printed, seed, cases)
}

/// Both sides on an input: what they print, or in words where they first differ.
pub fn differs(input: &Input, engine: Engine) -> Result<String, String> {
    let bytes = input.bytes();
    let (ours, theirs) = (engine(&bytes)?, Sheet::Mesh.of(&bytes));
    if ours == theirs {
        return Ok(ours);
    }
    let (mut here, mut there) = (ours.split('\n'), theirs.split('\n'));
    let mut number = 0;
    loop {
        number += 1;
        let [a, b] = [here.next(), there.next()];
        if a != b {
            return Err(format!(
                "line {number} is {a:?}, and by the reference {b:?}"
            ));
        }
    }
}

/// A refusal that is due before any pass, and something else printed.
fn wrong(input: &Input, refusal: Option<u8>, listing: &str) -> Option<String> {
    let due = format!("refused {} after 0\n", refusal?);
    (listing != due)
        .then(|| format!("{input}by the way it was made {due:?} is due, and printed is {listing}"))
}

/// One input, where so many cells of a kind are lent: one in three has something wrong. With it comes the refusal that is due for that, where
/// it is known.
pub fn draw(rng: &mut Rng, cells: impl Fn(Kind) -> Sizes) -> (Drawn<Input>, Option<u8>) {
    let mut input = accepted(rng);
    let cells = cells(input.written.mesh.kind);
    let mut dues: Vec<Due> = vec![];
    let damages = damages(rng, 3, &THINGS, |rng, which| {
        if which < SPOILS.len() {
            dues.push(spoil(rng, &mut input.written, &cells, which)?);
        } else if which == SPOILS.len() {
            input.most = rng.below(2);
        } else {
            input.smooth_time = rng.pick(&[2, 3, 128, 255]);
        }
        Some(())
    });
    let refusal = match &input {
        input if input.most < 2 => Some(3),
        input if input.smooth_time > 1 => Some(5),
        _ => first_due(&dues).and_then(|due| due.number),
    };
    let drawn = Drawn {
        case: input,
        lending: "enough to read it".into(),
        damages,
    };
    (drawn, refusal)
}

/// An input with nothing wrong; 10 may still stop its refinement.
fn accepted(rng: &mut Rng) -> Input {
    let (depth, verts, elements) = match rng.below(9) {
        0 => (0, 20, 9),
        1 | 2 => (1, 12, 9),
        3 | 4 => (2, 9, 3),
        5 => (3, 6, 3),
        6 => (2 + rng.below(2) as u8, 20, 40),
        _ => (rng.pick(&[4, 6, 9, 10, 255]), 3, 1),
    };
    let bounds = Bounds {
        verts,
        elements,
        ..Bounds::default()
    };
    let kind = rng.pick(&KINDS);
    Input {
        depth,
        smooth_time: rng.below(2) as u8,
        written: Written {
            mesh: random::mesh(rng, kind, &bounds),
            edits: vec![],
        },
        most: usize::MAX,
    }
}

/// All that can be wrong with an input.
const THINGS: [&str; SPOILS.len() + 2] =
    spoil::and(&["a byte before the file is missing", "smooth_time above 1"]);

fn count(found: &mut Compared, drawn: &Drawn<Input>, listing: &str) {
    let first = listing.lines().next().unwrap_or_default();
    found.met(first, 1);
    for damage in &drawn.damages {
        found.met(*damage, 1);
    }
    for head in ["v", "p", "l", "a", "s", "c"] {
        let lines = listing.lines().filter(|line| line.starts_with(head));
        // The first line begins with p too.
        let first = usize::from(first.starts_with(head));
        found.met(format!("lines of {head}"), (lines.count() - first) as u64);
    }
}

#[cfg(test)]
mod tests {
    use super::*;
    use reference::{
        mesh::{Curve, Element, Mesh, Vertex},
        sheet,
    };

    const CASES: u64 = 2_000;

    /// The classes that no run may miss: listings after so many passes, every refusal that there is before them and after some, every
    /// thing that can be wrong, lines of every form.
    #[test]
    fn inputs_are_printed_as_by_the_reference() {
        let passes = [0, 1, 2, 3, 255].map(|p| format!("passes {p}"));
        let refused = [1, 2, 3, 4, 5, 6, 7, 8, 10].map(|n| format!("refused {n} after 0"));
        let stopped = [1, 2, 3].map(|p| format!("refused 10 after {p}"));
        let things = THINGS.map(String::from);
        let lines = ["v", "p", "l", "a", "s", "c"].map(|head| format!("lines of {head}"));
        let wanted = [&passes[..], &refused, &stopped, &things, &lines].concat();
        program(1, CASES).is_whole(CASES, wanted.into_iter().map(|class| (class, 5)));
    }

    fn vertex(position: [f32; 4]) -> Vertex {
        Vertex {
            bits: position.map(f32::to_bits),
            flags: 0,
            tag: 0,
            k: 0,
        }
    }

    /// A mesh of vertices at (0,0), (1,1), (2,4) and so on in x, y.
    fn on_vertices(kind: Kind, count: usize) -> Mesh {
        Mesh {
            verts: (0..count)
                .map(|i| vertex([i as f32, (i * i) as f32, 0., 0.]))
                .collect(),
            ..Mesh::empty(kind)
        }
    }

    fn even(corners: &[u32]) -> Element {
        Element {
            corners: corners.to_vec(),
            parity: 0,
        }
    }

    /// Section 8's example, its bytes written out.
    #[test]
    fn the_example_of_the_document() {
        let mut input = vec![1, 0, 1, 0];
        input.extend([0, 0, 0, 2]);
        input.extend([0; 25]);
        input.extend([0x41, 0, 0, 0]);
        input.extend([0; 21]);
        input.extend([0, 0, 0, 0]);
        input.extend([0, 0, 0, 1, 0, 0, 0, 0, 0, 0, 0, 1, 0]);
        input.extend([0; 12]);
        let expected = "passes 1\n\
            v 0 40000000 00000000 00000000 00000000\n\
            v 1 40C00000 00000000 00000000 00000000\n\
            v 2 40800000 00000000 00000000 00000000\n\
            l 0 2 e\n\
            l 2 1 e\n";
        assert_eq!(printed(&input).as_deref(), Ok(expected));
        assert_eq!(Sheet::Mesh.of(&input), expected);
    }

    /// The listing of a mesh at a depth, on which both sides agree.
    fn listed(mesh: &Mesh, depth: u8) -> String {
        let input = sheet::input(depth, false, mesh);
        let listing = printed(&input).unwrap();
        assert_eq!(listing, Sheet::Mesh.of(&input));
        listing
    }

    /// After one pass: how many vertices are listed, and the lines behind them.
    fn after_one_pass(mesh: &Mesh) -> (usize, String) {
        let listing = listed(mesh, 1);
        let lines = listing.strip_prefix("passes 1\n").expect("one pass");
        let (verts, others): (Vec<&str>, Vec<&str>) =
            lines.lines().partition(|line| line.starts_with('v'));
        (verts.len(), others.join(", "))
    }

    /// P1 to P10 of document 01.
    #[test]
    fn the_marked_cases() {
        let lines = |kind, count, lines: &[[u32; 2]]| Mesh {
            lines: lines.iter().map(|line| even(line)).collect(),
            ..on_vertices(kind, count)
        };
        let told = |mesh: &Mesh, verts: usize, others: &str| {
            assert_eq!(after_one_pass(mesh), (verts, others.to_string()));
        };
        let p1 = lines(Kind::Cubes, 2, &[[0, 1]]);
        let unchanged = "passes 0\n\
            v 0 00000000 00000000 00000000 00000000\n\
            v 1 3F800000 3F800000 00000000 00000000\n\
            l 0 1 e\n";
        assert_eq!(listed(&p1, 0), unchanged);
        told(&lines(Kind::Cubes, 1, &[[0, 0]]), 1, "");
        told(&lines(Kind::Simplices, 1, &[[0, 0]]), 2, "l 0 1 e, l 1 0 e");
        for kind in KINDS {
            told(&lines(kind, 2, &[[0, 1], [0, 1]]), 3, "l 0 2 e, l 2 1 e");
            let p5 = "l 0 2 e, l 2 1 e, l 1 3 e, l 3 0 e";
            told(&lines(kind, 2, &[[0, 1], [1, 0]]), 4, p5);
            let p10 = Curve {
                tag: 0,
                verts: vec![0, 1, 2],
                steps: vec![0, 1, 0],
            };
            let p10 = Mesh {
                curves: vec![p10],
                ..on_vertices(kind, 3)
            };
            told(&p10, 5, "c 0 3 1 4 2 e e o o");
        }
        let squares = |count, corners: &[u32]| Mesh {
            areas: vec![even(corners)],
            ..on_vertices(Kind::Cubes, count)
        };
        let p7 = "a 0 5 6 4 e, a 5 1 4 7 e, a 6 4 2 8 e, a 4 7 8 3 e";
        told(&squares(4, &[0, 1, 2, 3]), 9, p7);
        told(&squares(3, &[0, 1, 2, 0]), 3, "");
        let p9 = Mesh {
            volumes: vec![even(&[0, 0, 1, 1, 2, 2, 3, 3])],
            ..on_vertices(Kind::Cubes, 4)
        };
        told(&p9, 9, "");
    }

    #[test]
    fn the_marked_triangle() {
        let p6 = Mesh {
            verts: [[0., 0.], [36., 0.], [0., 36.]]
                .map(|[x, y]| vertex([x, y, 0., 0.]))
                .to_vec(),
            areas: vec![even(&[0, 1, 2])],
            ..Mesh::empty(Kind::Simplices)
        };
        let expected = "passes 1\n\
            v 0 40C00000 40C00000 00000000 00000000\n\
            v 1 41C00000 40C00000 00000000 00000000\n\
            v 2 40C00000 41C00000 00000000 00000000\n\
            v 3 41600000 41000000 00000000 00000000\n\
            v 4 41000000 41600000 00000000 00000000\n\
            v 5 41600000 41600000 00000000 00000000\n\
            a 0 3 4 e\na 3 1 5 e\na 4 5 2 e\na 3 4 5 o\n";
        assert_eq!(listed(&p6, 1), expected);
    }

    /// A list of 1,024 entries is within its cells, one more isn't.
    #[test]
    fn full_lists_and_one_more() {
        for kind in KINDS {
            for list in 0..7 {
                for (more, expected) in [(0, "passes 0"), (1, "refused 10 after 0")] {
                    let count = CELLS + more;
                    let mut mesh = on_vertices(kind, 1);
                    let [line, area, volume] = kind.corners();
                    let elements = |corners: usize| vec![even(&vec![0; corners]); count];
                    let curve = |length: usize| Curve {
                        tag: 0,
                        verts: vec![0; length],
                        steps: vec![0; length],
                    };
                    match list {
                        0 => mesh.verts = vec![vertex([0.; 4]); count],
                        1 => mesh.points = vec![0; count],
                        2 => mesh.lines = elements(line),
                        3 => mesh.areas = elements(area),
                        4 => mesh.volumes = elements(volume),
                        5 => mesh.curves = vec![curve(1); count],
                        _ => mesh.curves = vec![curve(1), curve(count - 1)],
                    }
                    let listing = listed(&mesh, 0);
                    assert_eq!(listing.lines().next(), Some(expected), "list {list}");
                }
            }
        }
    }

    /// A wrong line, a line too many or too few, a missing newline and a wrong refusal are found.
    #[test]
    fn wrong_listings_are_noticed() {
        let spoils: [fn(String) -> String; 6] = [
            |listing| listing.replacen(" e\n", " o\n", 1),
            |listing| listing + "p 0\n",
            |listing| listing.trim_end().into(),
            |listing| listing.replace('A', "a"),
            |listing| listing.replace("refused 8", "refused 10"),
            |listing| listing.replace("after 2", "after 1"),
        ];
        for (i, spoil) in spoils.into_iter().enumerate() {
            let engine = |input: &[u8]| Ok(spoil(Sheet::Mesh.of(input)));
            let found = compare(&engine, 1, 500);
            assert!(found.apart.is_some(), "{i} goes unnoticed");
        }
    }

    /// What shows a fault is made as small as it can be: a fault of odd elements is shown by one of them.
    #[test]
    fn the_smallest_input_is_found() {
        let engine = |input: &[u8]| Ok(Sheet::Mesh.of(input).replace(" o\n", " e\n"));
        let apart = compare(&engine, 1, 500).apart.expect("odd is not even");
        assert!(apart.starts_with("depth 0, smooth_time 0"), "{apart}");
        assert!(apart.contains("line 3 is"), "{apart}");
    }
}

//! Cases to try, from a seeded generator: meshes of the reference's own generator, lent what the definition needs, more, or less; and
//! with any of the things wrong that a caller or a mesh's maker can get wrong.
use crate::{
    case::{row_words, Case, Given},
    damage::{hurt, other_length, DAMAGES, EMPTY_CURVE},
};
use reference::{
    memory::{subdivided, BOOK_WORDS},
    mesh::{Kind, Mesh, Sizes},
    random::{self, Bounds, Rng},
};

/// The names of the lists that cells are lent to, and of the book.
pub const LISTS: [&str; 8] = [
    "vertices",
    "points",
    "lines",
    "areas",
    "volumes",
    "curves",
    "curve vertices",
    "the book",
];

/// The cells of the seven lists and of the book.
pub type Cells = [usize; 8];

/// A call, and in words what it is a case of: how it is lent, and each thing that is wrong with it.
pub struct Drawn<T> {
    pub case: T,
    pub lending: String,
    pub damages: Vec<&'static str>,
}

/// One case. One in four has something wrong.
pub fn draw(rng: &mut Rng, kind: Kind) -> Drawn<Case> {
    let shape = shape(rng);
    let smooth_time = rng.below(2) as u8;
    let mesh = mesh(rng, kind, &shape);
    let needs = needs(&mesh, shape.passes, smooth_time == 1);
    let (lending, cells) = lending(rng, &needs, &shape);
    let mut case = Case::new(mesh, &sizes(&cells), cells[7], shape.depth, smooth_time);
    case.given.fill = rng.draw();
    free_words(rng, &mut case);
    let damages = damages(rng, 4, &DAMAGES, |rng, which| damage(rng, &mut case, which));
    Drawn {
        case,
        lending,
        damages,
    }
}

/// Things of a list that go wrong, once in so many times: each is done by `damage` if the case has a place for it.
pub fn damages(
    rng: &mut Rng,
    times: usize,
    things: &[&'static str],
    mut damage: impl FnMut(&mut Rng, usize) -> Option<()>,
) -> Vec<&'static str> {
    if !rng.once_in(times) {
        return vec![];
    }
    let mut one = |rng: &mut Rng| loop {
        let which = rng.below(things.len());
        if damage(rng, which).is_some() {
            return things[which];
        }
    };
    (0..rng.pick(&[1, 1, 1, 2, 3])).map(|_| one(rng)).collect()
}

/// How deep, how many passes are lent for, and how large.
struct Shape {
    depth: u8,
    passes: u8,
    bounds: Bounds,
    /// Nothing grows: no elements, and curves of one vertex alone.
    still: bool,
}

fn shape(rng: &mut Rng) -> Shape {
    let (depth, verts, elements) = match rng.below(20) {
        0 | 1 => (0, 9, 5),
        2..=6 => (1, 12, 6),
        7..=12 => (2, 9, 4),
        13..=16 => (3, 8, 3),
        17 | 18 => (4, 6, 2),
        _ => (rng.pick(&[5, 6, 9, 17, 64, 254, 255]), 3, 1),
    };
    let deep = depth > 4;
    Shape {
        depth,
        passes: if deep { rng.below(4) as u8 } else { depth },
        bounds: Bounds {
            verts,
            elements,
            ..Bounds::default()
        },
        still: deep && rng.once_in(2),
    }
}

fn mesh(rng: &mut Rng, kind: Kind, shape: &Shape) -> Mesh {
    let mut mesh = random::mesh(rng, kind, &shape.bounds);
    if shape.still {
        mesh.lines.clear();
        mesh.areas.clear();
        mesh.volumes.clear();
        mesh.curves.retain(|c| c.verts.len() == 1);
    }
    mesh
}

/// What the definition needs for so many passes, none first: of each list the most that it has had, and the vertices made.
pub fn needs(mesh: &Mesh, passes: u8, time: bool) -> Vec<Cells> {
    let mut most: Cells = [0; 8];
    (0..=passes)
        .map(|pass| {
            let after = match pass {
                0 => mesh.sizes(),
                _ => subdivided(mesh, pass, time).sizes(),
            };
            for (most, size) in most.iter_mut().zip(after.list()) {
                *most = (*most).max(size);
            }
            most[7] = after.verts - mesh.verts.len();
            most
        })
        .collect()
}

fn lending(rng: &mut Rng, needs: &[Cells], shape: &Shape) -> (String, Cells) {
    let last = needs.len() - 1;
    let mut cells = needs[last];
    let name = match rng.below(12) {
        0..=2 => {
            cells = cells.map(|n| n + rng.below(20));
            "more than is needed".into()
        }
        3 | 4 => "what is needed".into(),
        5 | 6 if last > 0 && shape.passes == shape.depth => {
            cells = needs[rng.below(last)];
            "what fewer passes need".into()
        }
        7 => {
            cells[7] = rng.below(cells[7] + 1);
            "a book of any length".into()
        }
        _ => {
            let list = rng.below(8);
            if cells[list] == 0 {
                "what is needed".into()
            } else {
                cells[list] -= 1;
                format!("one short of {}", LISTS[list])
            }
        }
    };
    if shape.passes < shape.depth {
        return ("fewer passes at a great depth".into(), cells);
    }
    (name, cells)
}

/// The sizes of the seven lists, which come first.
pub fn sizes(cells: &[usize]) -> Sizes {
    Sizes {
        verts: cells[0],
        points: cells[1],
        lines: cells[2],
        areas: cells[3],
        volumes: cells[4],
        curves: cells[5],
        curve_verts: cells[6],
    }
}

/// The words beside the last vertices of curves, which count for nothing.
pub fn last_steps(rng: &mut Rng, given: &mut Given) {
    for curve in &mut given.mesh.curves {
        if rng.once_in(2) {
            *curve.steps.last_mut().expect("no curve is drawn empty") = rng.draw() as u32;
        }
    }
}

/// Words that count for nothing: beside a curve's last vertex; too few for a row, as many on both benches; and more cells in one of the
/// vertices' two slices, of which the smaller number counts. Now and then they count: benches are unequal, or sums more than the vertices.
fn free_words(rng: &mut Rng, case: &mut Case) {
    last_steps(rng, &mut case.given);
    let chance = rng.below(24);
    if chance % 3 > 0 {
        return;
    }
    let rows = row_words(case.given.mesh.kind);
    for (slice, row) in rows.into_iter().enumerate() {
        case.given.words[slice] += rng.below(row);
        case.second[slice] += rng.below(row);
    }
    case.book += rng.below(BOOK_WORDS);
    case.sums += rng.below(4);
    case.tallies += rng.below(2);
    let (list, more) = (rng.below(3), rng.below(3));
    match list {
        0 => case.given.words[0] += 4 * more,
        1 => case.given.words[1] += 3 * more,
        _ if chance < 9 => case.sums += 4 * more,
        _ => {}
    }
    if chance > 0 {
        case.second = case.given.words;
    }
}

/// One of the things that can be wrong, if the case has a place for it.
fn damage(rng: &mut Rng, case: &mut Case, which: usize) -> Option<()> {
    match which {
        2 => {
            let slice = rng.below(8);
            let row = row_words(case.given.mesh.kind)[slice];
            other_length(rng, &mut case.second[slice], row);
        }
        3 => other_length(rng, &mut case.sums, 4),
        4 => other_length(rng, &mut case.tallies, 2),
        5 => case.smooth_time = rng.pick(&[2, 3, 128, 255]),
        _ => hurt(rng, &mut case.given, which)?,
    }
    if which == EMPTY_CURVE {
        // The benches stay equal.
        case.second[6] += 2;
    }
    Some(())
}

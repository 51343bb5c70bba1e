//! Triangulation and both normals against the original Rust in reference/, which gives every list that is written: the refusal; the sizes
//! that triangulation answers with; every word of every lent list, also past what is written; and every word of the mesh, which stays.
//! Flat normals are left out of the comparison with the Rust, which has NaN or infinities there: here they are +0 in every place.
use crate::{
    case::{any_words, row_words, Given},
    damage::{hurt, DAMAGES},
    draw::{damages, last_steps, Drawn},
    exports,
    refinement::{described, same_bench, same_words, Compared},
    shrink::Shrink,
};
use reference::{
    gathered::{sums_3d, sums_4d},
    memory::{normals_3d, normals_4d, triangulated, Bench, Normal},
    mesh::{Element, Kind, Mesh, Sizes, LIMIT},
    random::{self, Bounds, Rng},
};
use std::fmt;

/// The entries that write into lists lent for that.
#[derive(Copy, Clone, Debug, PartialEq, Eq)]
pub enum Entry {
    Triangulation,
    Normals3,
    Normals4,
}

pub const ENTRIES: [(&str, Entry); 3] = [
    ("triangulation", Entry::Triangulation),
    ("normals3", Entry::Normals3),
    ("normals4", Entry::Normals4),
];

impl Entry {
    /// The meshes that it takes.
    pub fn kind(self) -> Kind {
        match self {
            Entry::Triangulation => Kind::Cubes,
            Entry::Normals3 | Entry::Normals4 => Kind::Simplices,
        }
    }

    /// The lists that it writes, each with the words of a row.
    pub fn lists(self) -> &'static [(&'static str, usize)] {
        match self {
            Entry::Triangulation => &[("triangles", 4), ("tetrahedra", 5)],
            Entry::Normals3 => &[("normals", 3)],
            Entry::Normals4 => &[("normals", 4)],
        }
    }

    /// What it makes of an accepted mesh.
    pub fn made(self, mesh: &Mesh) -> Made {
        fn cells<const N: usize>(normals: Vec<Normal<N>>) -> Vec<u32> {
            let words = |normal| match normal {
                Normal::Direction(bits) => bits,
                Normal::Flat => [0; N],
            };
            normals.into_iter().flat_map(words).collect()
        }
        match self {
            Entry::Triangulation => {
                let cut = triangulated(mesh);
                let sizes = cut.sizes();
                let mut bench = Bench::lent(cut.kind, &sizes);
                bench.put(&cut);
                Made {
                    words: vec![bench.areas, bench.volumes],
                    sizes,
                }
            }
            Entry::Normals3 => Made {
                words: vec![cells(normals_3d(mesh))],
                sizes: mesh.sizes(),
            },
            Entry::Normals4 => Made {
                words: vec![cells(normals_4d(mesh))],
                sizes: mesh.sizes(),
            },
        }
    }

    /// The entries of each list that is written.
    pub fn entries(self, words: &[Vec<u32>]) -> Vec<usize> {
        let rows = words.iter().zip(self.lists());
        rows.map(|(words, (_, row))| words.len() / row).collect()
    }
}

/// The words of each list that is written, and the sizes of the mesh afterwards.
pub struct Made {
    pub words: Vec<Vec<u32>>,
    pub sizes: Sizes,
}

/// The refusal's number, 0 when finished; and the sizes, which normals don't answer with.
#[derive(Copy, Clone, Debug, PartialEq, Eq)]
pub struct Answered {
    pub number: u8,
    pub sizes: Option<[usize; 7]>,
}

/// What writes: the library, or in tests something that goes wrong on purpose.
pub type Engine<'a> = &'a dyn Fn(Entry, &mut Bench, &Sizes, &mut [Vec<u32>]) -> Answered;

/// One call of such an entry.
#[derive(Clone, Debug)]
pub struct Call {
    pub entry: Entry,
    pub given: Given,
    /// Lent words of each list that is written.
    pub lent: Vec<usize>,
}

impl Call {
    /// An accepted mesh, every list exactly full.
    pub fn new(entry: Entry, mesh: Mesh) -> Call {
        let (made, cells) = (entry.made(&mesh), mesh.sizes());
        Call {
            entry,
            given: Given::new(mesh, &cells),
            lent: made.words.iter().map(Vec::len).collect(),
        }
    }

    /// The bench and the lists to write, as they are handed in.
    pub fn handed(&self) -> (Bench, Vec<Vec<u32>>) {
        let (bench, mut rng) = self.given.bench();
        let lists = self.lent.iter().map(|n| any_words(&mut rng, *n)).collect();
        (bench, lists)
    }

    /// The answer that is due, with the lists afterwards. After a refusal they are as they were, and the sizes are those stated.
    pub fn due(&self, bench: &Bench, lists: &[Vec<u32>]) -> (Answered, Vec<Vec<u32>>) {
        let (entry, counts) = (self.entry, self.given.counts);
        let answered = |number: u8, sizes: Sizes| Answered {
            number,
            sizes: (entry == Entry::Triangulation).then(|| sizes.list()),
        };
        if let Some(number) = self.given.handed(bench).judge(0) {
            return (answered(number, counts), lists.to_vec());
        }
        let made = entry.made(&bench.mesh(entry.kind(), &counts));
        let entries = entry.entries(&made.words).into_iter();
        if !entries
            .zip(entry.entries(lists))
            .all(|(n, cells)| n <= cells.min(LIMIT))
        {
            return (answered(10, counts), lists.to_vec());
        }
        let mut after = lists.to_vec();
        for (list, words) in after.iter_mut().zip(&made.words) {
            list[..words.len()].copy_from_slice(words);
        }
        (answered(0, made.sizes), after)
    }
}

impl fmt::Display for Call {
    fn fmt(&self, f: &mut fmt::Formatter) -> fmt::Result {
        writeln!(
            f,
            "{:?}, words lent for what is written: {:?}",
            self.entry, self.lent
        )?;
        self.given.fmt(f)
    }
}

impl Shrink for Call {
    fn smaller(&self) -> Vec<Call> {
        let on = |given| Call {
            given,
            ..self.clone()
        };
        self.given.smaller().into_iter().map(on).collect()
    }
}

/// So many calls of an entry; stops at the first on which the two sides differ.
pub fn compare(engine: Engine, entry: Entry, seed: u64, cases: u64) -> Compared {
    Compared::of(seed, cases, |rng, found| {
        let drawn = draw(rng, entry);
        match differs(&drawn.case, engine) {
            Ok(number) => count(found, &drawn, number),
            Err(_) => found.apart = Some(described(drawn.case, |c| differs(c, engine).err())),
        }
    })
}

/// The library against the reference.
pub fn library(entry: Entry, seed: u64, cases: u64) -> Compared {
    compare(&exports::derive, entry, seed, cases)
}

/// Runs both sides on a call: the number on which they agree, or in words where they first differ.
pub fn differs(call: &Call, engine: Engine) -> Result<u8, String> {
    let (mut bench, mut lists) = call.handed();
    let before = bench.clone();
    let (due, expected) = call.due(&before, &lists);
    let told = engine(call.entry, &mut bench, &call.given.counts, &mut lists);
    if told != due {
        return Err(format!(
            "the answer is {told:?}, and by the reference {due:?}"
        ));
    }
    for (i, (name, _)) in call.entry.lists().iter().enumerate() {
        same_words(name, &lists[i], &expected[i])?;
    }
    same_bench("the mesh's", &bench, &before)?;
    Ok(due.number)
}

/// One call. One in four has something wrong.
fn draw(rng: &mut Rng, entry: Entry) -> Drawn<Call> {
    let mesh = mesh(rng, entry.kind());
    let (lending, lent) = lending(rng, entry, &entry.made(&mesh));
    let mut given = given(rng, mesh);
    let damages = damages(rng, 4, &DAMAGES, |rng, which| hurt(rng, &mut given, which));
    Drawn {
        case: Call { entry, given, lent },
        lending,
        damages,
    }
}

/// An accepted mesh of a kind, small, with its coordinates of any size.
pub fn mesh(rng: &mut Rng, kind: Kind) -> Mesh {
    let bounds = Bounds {
        verts: rng.pick(&[4, 9, 20]),
        elements: rng.pick(&[1, 4, 9]),
        ..Bounds::default()
    };
    let mut mesh = random::mesh(rng, kind, &bounds);
    place(rng, &mut mesh);
    mesh
}

/// A mesh on its bench, with any words where they count for nothing.
pub fn given(rng: &mut Rng, mesh: Mesh) -> Given {
    let (kind, cells) = (mesh.kind, mesh.sizes());
    let mut given = Given::new(mesh, &cells);
    given.fill = rng.draw();
    last_steps(rng, &mut given);
    if rng.once_in(2) {
        // Cells to spare, and too few words for a row.
        for (words, row) in given.words.iter_mut().zip(row_words(kind)) {
            *words += rng.below(3 * row);
        }
    }
    given
}

/// Leaves coordinates as they are; or makes them so small that dots lie about the least numbers, some to be rounded to 0; or as large
/// as they may be.
fn place(rng: &mut Rng, mesh: &mut Mesh) {
    let size = 2_f32.powi(-20 - rng.below(32) as i32);
    let way = rng.below(4);
    for bits in mesh.verts.iter_mut().flat_map(|v| &mut v.bits) {
        let at = f32::from_bits(*bits);
        let moved = match way {
            0 | 1 => at * size,
            2 if !rng.once_in(8) => 1024_f32.copysign(at),
            _ => at,
        };
        *bits = moved.to_bits();
    }
}

/// More cells than are needed for what is written, exactly as many, one too few, or none.
fn lending(rng: &mut Rng, entry: Entry, made: &Made) -> (String, Vec<usize>) {
    let mut cells = entry.entries(&made.words);
    let list = rng.below(cells.len());
    let name = entry.lists()[list].0;
    let lending = match rng.below(6) {
        0 | 1 => {
            cells.iter_mut().for_each(|n| *n += 1 + rng.below(9));
            "more than is needed".into()
        }
        2 if cells[list] > 0 => {
            cells[list] -= 1;
            format!("one short of {name}")
        }
        3 if cells[list] > 0 => {
            cells[list] = 0;
            format!("no {name}")
        }
        _ => "what is needed".into(),
    };
    let rows = cells.iter().zip(entry.lists());
    let words = rows.map(|(n, (_, row))| n * row + rng.below(*row));
    (lending, words.collect())
}

fn count(found: &mut Compared, drawn: &Drawn<Call>, number: u8) {
    found.met(format!("answer {number}"), 1);
    found.drawn(drawn, number);
    if number > 0 {
        return;
    }
    let Call { entry, given, .. } = &drawn.case;
    let mesh = given.bench().0.mesh(entry.kind(), &given.counts);
    count_made(found, *entry, &mesh);
}

/// What an entry makes of an accepted mesh.
pub fn count_made(found: &mut Compared, entry: Entry, mesh: &Mesh) {
    match entry {
        Entry::Triangulation => count_pieces(found, mesh),
        Entry::Normals3 => count_dots(found, &sums_3d(mesh), &mesh.areas, 44),
        Entry::Normals4 => count_dots(found, &sums_4d(mesh), &mesh.volumes, 66),
    }
}

/// Some corner stands in it twice.
pub fn repeats(element: &Element) -> bool {
    let corners = &element.corners;
    (1..corners.len()).any(|i| corners[..i].contains(&corners[i]))
}

fn count_pieces(found: &mut Compared, mesh: &Mesh) {
    let cut = triangulated(mesh);
    let lists = [
        ("squares", 2, &mesh.areas, &cut.areas),
        ("cubes", 6, &mesh.volumes, &cut.volumes),
    ];
    for (name, all, whole, pieces) in lists {
        let odd = whole.iter().filter(|e| e.parity == 1).count();
        found.met(format!("{name}, even"), (whole.len() - odd) as u64);
        found.met(format!("{name}, odd"), odd as u64);
        let different = whole.iter().filter(|e| !repeats(e)).count();
        found.met(format!("{name} of different corners"), different as u64);
        let dropped = all * whole.len() - pieces.len();
        found.met(format!("pieces of {name} dropped"), dropped as u64);
    }
}

/// A sum times itself, from the left. Where it rounds to 0 the normal is Flat.
pub fn dot(sum: &[f32]) -> f32 {
    sum[1..].iter().fold(sum[0] * sum[0], |d, c| d + c * c)
}

/// How large the dot of each vertex's sum is. At the largest coordinates one element's is 2 to the power of `largest` or more.
fn count_dots<const N: usize>(
    found: &mut Compared,
    sums: &[[f32; N]],
    elements: &[Element],
    largest: i32,
) {
    for (v, sum) in sums.iter().enumerate() {
        let dot = dot(sum);
        let met = || elements.iter().filter(|e| e.corners.contains(&(v as u32)));
        let size = match dot {
            _ if met().next().is_none() => "Flat, no element",
            _ if *sum == [0.; N] => "Flat, sum 0",
            0. => "Flat, dot rounds to 0",
            d if d < f32::MIN_POSITIVE => "dot subnormal",
            d if d >= 2_f32.powi(largest) => "dot of the largest coordinates",
            _ => "dot normal",
        };
        found.met(size, 1);
        if dot > 0. && met().all(repeats) {
            found.met("direction of elements with a corner twice", 1);
        }
    }
}

#[cfg(test)]
mod tests {
    use super::*;
    use crate::desk::flip;
    use reference::mesh::Vertex;

    const CASES: u64 = 20_000;

    /// The classes that no run may miss: every answer, every way of lending, every damage to a mesh, and what the entry is about.
    fn wanted(entry: Entry) -> Vec<String> {
        // Those of what a refinement is lent beside a mesh, and of smooth_time.
        let others = &DAMAGES[2..6];
        let damages = DAMAGES.iter().filter(|d| !others.contains(d));
        let lending = ["more than is needed: 0", "what is needed: 0"];
        let mut classes: Vec<String> = damages.chain(&lending).map(|c| (*c).into()).collect();
        classes.extend([0, 5, 6, 7, 8, 9, 10].map(|n| format!("answer {n}")));
        for (name, _) in entry.lists() {
            classes.extend(["one short of", "no"].map(|lent| format!("{lent} {name}: 10")));
        }
        let about: &[&str] = match entry {
            Entry::Triangulation => &[
                "squares, even",
                "squares, odd",
                "squares of different corners",
                "pieces of squares dropped",
                "cubes, even",
                "cubes, odd",
                "cubes of different corners",
                "pieces of cubes dropped",
            ],
            Entry::Normals3 => &DOTS,
            Entry::Normals4 => &["direction of elements with a corner twice"],
        };
        classes.extend(about.iter().map(|c| (*c).into()));
        if entry == Entry::Normals4 {
            classes.extend(DOTS.map(String::from));
        }
        classes
    }

    const DOTS: [&str; 6] = [
        "Flat, no element",
        "Flat, sum 0",
        "Flat, dot rounds to 0",
        "dot subnormal",
        "dot normal",
        "dot of the largest coordinates",
    ];

    fn agrees(entry: Entry) {
        let found = library(entry, 1, CASES);
        found.is_whole(CASES, wanted(entry).into_iter().map(|class| (class, 50)));
    }

    #[test]
    fn cubes_are_cut_as_by_the_reference() {
        agrees(Entry::Triangulation);
    }

    #[test]
    fn normals_in_3d_are_those_of_the_reference() {
        agrees(Entry::Normals3);
    }

    #[test]
    fn normals_in_4d_are_those_of_the_reference() {
        agrees(Entry::Normals4);
    }

    /// So many squares and so many cubes over eight vertices; more cells are lent for what is written than the limit allows.
    fn crowded(areas: usize, volumes: usize) -> Call {
        let vertex = Vertex {
            bits: [0; 4],
            flags: 0,
            tag: 0,
            k: 0,
        };
        let element = |corners: u32| Element {
            corners: (0..corners).collect(),
            parity: 1,
        };
        let mesh = Mesh {
            verts: vec![vertex; 8],
            areas: vec![element(4); areas],
            volumes: vec![element(8); volumes],
            ..Mesh::empty(Kind::Cubes)
        };
        Call {
            lent: vec![4 * (LIMIT + 9), 5 * (LIMIT + 9)],
            ..Call::new(Entry::Triangulation, mesh)
        }
    }

    /// 1,048,576 triangles are written and no more; of tetrahedra, six from each cube, as many as come below that.
    #[test]
    fn the_limit_stops_what_the_cells_would_hold() {
        let (squares, cubes) = (LIMIT / 2, LIMIT / 6);
        for (areas, volumes, expected) in [
            (squares, cubes, 0),
            (squares + 1, cubes, 10),
            (squares, cubes + 1, 10),
        ] {
            let call = crowded(areas, volumes);
            assert_eq!(differs(&call, &exports::derive), Ok(expected));
        }
    }

    type Spoil = fn(&mut Answered, &mut Bench, &mut [Vec<u32>]);

    /// The library, and afterwards something is spoiled: in the answer, on the mesh's bench or in a lent list.
    fn spoiled(spoil: Spoil) -> impl Fn(Entry, &mut Bench, &Sizes, &mut [Vec<u32>]) -> Answered {
        move |entry, bench, sizes, lists| {
            let mut told = exports::derive(entry, bench, sizes, lists);
            spoil(&mut told, bench, lists);
            told
        }
    }

    /// A wrong word in a lent list, at its start or past what is written, one on the mesh's bench, one that a refusal leaves, and a
    /// wrong answer are found.
    #[test]
    fn wrong_lists_are_noticed() {
        let spoils: [Spoil; 7] = [
            |_, _, lists| flip(lists[0].first_mut()),
            |_, _, lists| flip(lists[0].last_mut()),
            |_, _, lists| flip(lists[lists.len() - 1].first_mut()),
            |_, _, lists| flip(lists[lists.len() - 1].last_mut()),
            |_, bench, _| flip(bench.marks.last_mut()),
            |told, _, lists| flip(lists[0].first_mut().filter(|_| told.number == 10)),
            |told, _, _| told.number ^= u8::from(told.number == 10),
        ];
        for (_, entry) in ENTRIES {
            for (i, spoil) in spoils.into_iter().enumerate() {
                let found = compare(&spoiled(spoil), entry, 1, 1_000);
                assert!(found.apart.is_some(), "{i} goes unnoticed in {entry:?}");
            }
        }
        let sizes: Spoil = |told, _, _| {
            let refused = usize::from(told.number == 10);
            told.sizes = told.sizes.map(|sizes| sizes.map(|n| n + refused));
        };
        let found = compare(&spoiled(sizes), Entry::Triangulation, 1, 1_000);
        assert!(found.apart.is_some(), "wrong sizes go unnoticed");
    }

    /// -0 for a Flat normal is found, and one vertex without anything else shows it.
    #[test]
    fn the_smallest_flat_normal_is_found() {
        let minus_zero: Spoil = |told, _, lists| {
            let flat = lists[0].iter_mut().filter(|word| **word == 0);
            flat.for_each(|word| *word = u32::from(told.number == 0) << 31);
        };
        let found = compare(&spoiled(minus_zero), Entry::Normals4, 1, 1_000);
        let apart = found.apart.expect("-0 is no Flat normal");
        assert!(
            apart.contains("sizes stated [1, 0, 0, 0, 0, 0, 0]"),
            "{apart}"
        );
        assert!(
            apart.ends_with("word 0 of normals is 80000000, and by the reference 00000000"),
            "{apart}"
        );
    }
}

//! Document 02's U5, seen: a mesh with every parity changed keeps Flat normals Flat; elsewhere the sign bit alone changes of each component whose sum
//! isn't zero, and every other component is +0 both times. It goes by the sum: a component whose sum isn't zero may itself round to a zero, and then +0
//! and -0 stand opposite.
//!
//! The sums are section 7's (`gathered` in reference/), and a normal is Flat where its sum's dot rounds to 0. Of what the two calls leave, only the answers
//! and the lent words are read, the one's against the other's: that they are the right normals is held by `derived`.
use crate::{
    derived::{self, dot, Call, Entry},
    exports,
    refinement::{described, same_bench, same_words, Compared},
};
use reference::{
    gathered::{sums_3d, sums_4d},
    memory::{judge_mesh, Bench},
    mesh::{Element, Mesh, Sizes},
    random::Rng,
};

/// What is lent for one of the two meshes: its bench, and the one list that its normals are written to.
type Side = (Bench, Vec<Vec<u32>>);

/// What shades a mesh and the same turned: the library, or in tests something that goes wrong on purpose.
type Engine<'a> = &'a dyn Fn(Entry, &Sizes, &mut [Side; 2]) -> [u8; 2];

const SIGN: u32 = 1 << 31;

/// So many random meshes; stops at the first that is not as U5 says.
fn compare(engine: Engine, entry: Entry, seed: u64, cases: u64) -> Compared {
    Compared::of(seed, cases, |rng, found| {
        let call = draw(rng, entry);
        match check(&call, engine) {
            Ok(seen) => count(found, &call, seen),
            Err(_) => found.apart = Some(described(call, |c| wrong(c, engine))),
        }
    })
}

/// The library's normals.
pub fn library(entry: Entry, seed: u64, cases: u64) -> Compared {
    compare(&shaded, entry, seed, cases)
}

fn shaded(entry: Entry, counts: &Sizes, sides: &mut [Side; 2]) -> [u8; 2] {
    let shade = |(bench, lists): &mut Side| exports::derive(entry, bench, counts, lists).number;
    sides.each_mut().map(shade)
}

/// What is wrong with an accepted mesh's normals.
fn wrong(call: &Call, engine: Engine) -> Option<String> {
    match judge_mesh(&call.given.mesh) {
        None => check(call, engine).err(),
        Some(_) => None,
    }
}

/// A mesh as `derived` draws it, or thin, with words to spare for its normals.
fn draw(rng: &mut Rng, entry: Entry) -> Call {
    let mut mesh = derived::mesh(rng, entry.kind());
    if rng.once_in(4) {
        thin(rng, &mut mesh, width(entry));
    }
    let spare = 1 + rng.below(9);
    Call {
        entry,
        lent: vec![width(entry) * mesh.verts.len() + spare],
        given: derived::given(rng, mesh),
    }
}

/// How many components a normal has.
fn width(entry: Entry) -> usize {
    entry.lists()[0].1
}

/// On one axis there are but some of the least numbers, so that sums that aren't zero are small enough beside others for their components to round to a zero.
fn thin(rng: &mut Rng, mesh: &mut Mesh, axes: usize) {
    let axis = rng.below(axes);
    for vertex in &mut mesh.verts {
        vertex.bits[axis] = rng.pick(&[0, SIGN]) | rng.below(8) as u32;
    }
}

/// The same call with every parity changed, and with other words in all free cells.
fn turned(call: &Call) -> Call {
    let mut turned = call.clone();
    turned.given.mesh = call.given.mesh.turned();
    turned.given.fill = !call.given.fill;
    turned
}

/// Shades a mesh and the same turned, and holds U5 against the normals: what each component shows, or in words where it fails.
fn check(call: &Call, engine: Engine) -> Result<Vec<&'static str>, String> {
    let calls = [call, &turned(call)];
    let mut sides = calls.map(Call::handed);
    let handed = sides.clone();
    let told = engine(call.entry, &call.given.counts, &mut sides);
    if told != [0, 0] {
        return Err(format!("the answers are {told:?}"));
    }
    let written = width(call.entry) * call.given.mesh.verts.len();
    for ((bench, lists), (before, lent)) in sides.iter().zip(&handed) {
        same_bench("the mesh's", bench, before)?;
        same_words(
            "what is past the normals",
            &lists[0][written..],
            &lent[0][written..],
        )?;
    }
    let sums = calls.map(|c| sums(call.entry, &c.given.mesh));
    opposite(&sums)?;
    let [(_, before), (_, after)] = sides;
    hold(&sums[0], &before[0], &after[0])
}

/// What each vertex gathers.
fn sums(entry: Entry, mesh: &Mesh) -> Vec<Vec<f32>> {
    fn rows<const N: usize>(sums: Vec<[f32; N]>) -> Vec<Vec<f32>> {
        sums.into_iter().map(Vec::from).collect()
    }
    match entry {
        Entry::Normals3 => rows(sums_3d(mesh)),
        Entry::Normals4 => rows(sums_4d(mesh)),
        Entry::Triangulation => panic!("triangulation adds nothing up"),
    }
}

/// No sum is -0, and those of the turned mesh are the negated ones, or +0 both times.
fn opposite([sums, turned]: &[Vec<Vec<f32>>; 2]) -> Result<(), String> {
    for (s, t) in sums.iter().flatten().zip(turned.iter().flatten()) {
        let as_said = match (s.to_bits(), t.to_bits()) {
            (0, 0) => true,
            (s, t) => ![0, SIGN].contains(&s) && s ^ t == SIGN,
        };
        if !as_said {
            return Err(format!("a sum is {s:?}, and {t:?} in the turned mesh"));
        }
    }
    Ok(())
}

/// What each component shows, by its vertex's sum.
fn hold(sums: &[Vec<f32>], before: &[u32], after: &[u32]) -> Result<Vec<&'static str>, String> {
    let mut seen = vec![];
    let mut words = before.iter().zip(after);
    for (v, sum) in sums.iter().enumerate() {
        let flat = dot(sum) == 0.;
        for (s, (a, b)) in sum.iter().zip(&mut words) {
            let class = component(flat, *s, [*a, *b]).ok_or_else(|| {
                format!(
                    "vertex {v} has {a:08X} and turned {b:08X}, where the sum is {s:?} of {sum:?}"
                )
            })?;
            seen.push(class);
        }
    }
    Ok(seen)
}

/// What a component shows before and after, of a Flat normal or by its own sum; None where that is not as U5 says.
fn component(flat: bool, sum: f32, words: [u32; 2]) -> Option<&'static str> {
    let zero = flat || sum == 0.;
    match words {
        [0, 0] if flat => Some("component of Flat"),
        [0, 0] if zero => Some(ZERO),
        [before, after] if zero || before ^ after != SIGN => None,
        [0, SIGN] => Some(TO_MINUS_ZERO),
        [SIGN, 0] => Some(TO_PLUS_ZERO),
        [before, after] if before < after => Some(TO_MINUS),
        _ => Some(TO_PLUS),
    }
}

const ZERO: &str = "+0 both times, by a sum of 0 beside others";
const TO_MINUS_ZERO: &str = "from +0 to -0, by a sum that isn't 0";
const TO_PLUS_ZERO: &str = "from -0 to +0, by a sum that isn't 0";
const TO_MINUS: &str = "from + to -";
const TO_PLUS: &str = "from - to +";
const BOTH_PARITIES: &str = "meshes with an element of both parities";

fn count(found: &mut Compared, call: &Call, seen: Vec<&str>) {
    let mesh = &call.given.mesh;
    let elements = match call.entry {
        Entry::Normals3 => &mesh.areas,
        _ => &mesh.volumes,
    };
    found.met(BOTH_PARITIES, both_parities(elements).into());
    derived::count_made(found, call.entry, mesh);
    seen.into_iter().for_each(|class| found.met(class, 1));
}

/// Some element of different corners is there even and odd.
fn both_parities(elements: &[Element]) -> bool {
    let opposite = |a: &Element, b: &Element| a.corners == b.corners && a.parity != b.parity;
    let mut whole = elements.iter().filter(|e| !derived::repeats(e));
    whole.any(|a| elements.iter().any(|b| opposite(a, b)))
}

#[cfg(test)]
mod tests {
    use super::*;
    use crate::{desk::flip, NORMALS};

    const CASES: u64 = 20_000;

    /// The classes that no run may miss.
    const WANTED: [&str; 9] = [
        "Flat, no element",
        "Flat, sum 0",
        "Flat, dot rounds to 0",
        ZERO,
        TO_MINUS_ZERO,
        TO_PLUS_ZERO,
        TO_MINUS,
        TO_PLUS,
        BOTH_PARITIES,
    ];

    fn turns(entry: Entry) {
        let found = library(entry, 1, CASES);
        found.is_whole(CASES, WANTED.into_iter().map(|class| (class.into(), 50)));
    }

    #[test]
    fn normals_in_3d_turn_with_the_parities() {
        turns(Entry::Normals3);
    }

    #[test]
    fn normals_in_4d_turn_with_the_parities() {
        turns(Entry::Normals4);
    }

    /// A sum that is -0, that stays as it is, or that is no longer +0, is found.
    #[test]
    fn wrong_sums_are_noticed() {
        let held = |s: f32, t: f32| opposite(&[vec![vec![s]], vec![vec![t]]]).is_ok();
        assert!(held(0., 0.) && held(3., -3.) && held(-3., 3.));
        for (s, t) in [
            (-0., 0.),
            (-0., -0.),
            (0., -0.),
            (3., 3.),
            (3., 0.),
            (0., 3.),
        ] {
            assert!(!held(s, t), "{s:?} and {t:?}");
        }
    }

    /// The words of a vertex's normal, before and after.
    type Spoil = fn(&mut [u32], &mut [u32]);

    /// The library, and afterwards every vertex's two normals are spoiled.
    fn spoiled(spoil: Spoil) -> impl Fn(Entry, &Sizes, &mut [Side; 2]) -> [u8; 2] {
        move |entry, counts, sides| {
            let told = shaded(entry, counts, sides);
            let [(_, before), (_, after)] = sides;
            let before = before[0].chunks_exact_mut(width(entry));
            let after = after[0].chunks_exact_mut(width(entry));
            for (before, after) in before.zip(after).take(counts.verts) {
                spoil(before, after);
            }
            told
        }
    }

    fn is_flat(normal: &[u32]) -> bool {
        normal.iter().all(|word| *word == 0)
    }

    /// Puts other words where these stand before and after.
    fn put(before: &mut [u32], after: &mut [u32], these: [u32; 2], others: [u32; 2]) {
        for (a, b) in before.iter_mut().zip(after) {
            if [*a, *b] == these {
                [*a, *b] = others;
            }
        }
    }

    const ONE: u32 = 0x3F80_0000;

    /// The ways to get U5 wrong, each alone.
    const SPOILS: [(&str, Spoil); 11] = [
        ("parity ignored", |a, b| b.copy_from_slice(a)),
        ("Flat where it was none", |_, b| b.fill(0)),
        ("Flat before alone", |a, b| {
            b[0] |= if is_flat(a) { ONE } else { 0 };
        }),
        ("Flat neither time", |a, b| {
            if is_flat(a) {
                (a[0], b[0]) = (ONE, ONE | SIGN);
            }
        }),
        ("-0 for Flat", |a, b| {
            if is_flat(a) {
                put(a, b, [0, 0], [SIGN, SIGN]);
            }
        }),
        ("Flat turned", |a, b| {
            if is_flat(a) {
                put(a, b, [0, 0], [0, SIGN]);
            }
        }),
        ("-0 for a sum of 0", |a, b| {
            if !is_flat(a) {
                put(a, b, [0, 0], [SIGN, SIGN]);
            }
        }),
        ("a sum of 0 turned", |a, b| {
            if !is_flat(a) {
                put(a, b, [0, 0], [0, SIGN]);
            }
        }),
        ("+0 for -0 after", |a, b| put(a, b, [0, SIGN], [0, 0])),
        ("+0 for -0 before", |a, b| put(a, b, [SIGN, 0], [0, 0])),
        ("the lowest bit too", |a, b| {
            let last = b.last_mut().filter(|_| !is_flat(a));
            *last.unwrap_or(&mut 0) ^= 1;
        }),
    ];

    #[test]
    fn wrong_normals_are_noticed() {
        for entry in NORMALS {
            for (name, spoil) in SPOILS {
                let found = compare(&spoiled(spoil), entry, 1, 1_000);
                let apart = found.apart.unwrap_or_default();
                assert!(apart.contains("where the sum is"), "{entry:?}: {name}");
            }
        }
    }

    /// A refusal, a wrong word on a bench and one past the normals, of either mesh, are found.
    #[test]
    fn wrong_calls_are_noticed() {
        let spoils: [fn(&mut u8, &mut Side); 3] = [
            |told, _| *told = 10,
            |_, (bench, _)| flip(bench.areas.last_mut()),
            |_, (_, lists)| flip(lists[0].last_mut()),
        ];
        for (i, spoil) in spoils.into_iter().enumerate() {
            for side in [0, 1] {
                let wrong = |entry: Entry, counts: &Sizes, sides: &mut [Side; 2]| {
                    let mut told = shaded(entry, counts, sides);
                    spoil(&mut told[side], &mut sides[side]);
                    told
                };
                let found = compare(&wrong, Entry::Normals3, 1, 1_000);
                assert!(found.apart.is_some(), "{i} of {side} goes unnoticed");
            }
        }
    }

    /// Three vertices and a triangle show that parity is ignored.
    #[test]
    fn the_smallest_mesh_is_found() {
        let (_, ignored) = SPOILS[0];
        let found = compare(&spoiled(ignored), Entry::Normals3, 1, 1_000);
        let apart = found.apart.expect("parity counts");
        assert!(
            apart.contains("sizes stated [3, 0, 0, 1, 0, 0, 0]"),
            "{apart}"
        );
    }
}

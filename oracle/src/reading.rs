//! Reading a file against the reader in reference/, which judges any bytes as document 01's section 8 says: the refusal, the kind and the
//! sizes; every word of the first bench, also past what is written; and every word of the second and every byte, which stay. After a
//! refusal all of them do.
use crate::{
    case::{any_bench, row_words, unequal, words_for},
    damage::other_length,
    desk::Told,
    draw::{damages, sizes, Cells, Drawn, LISTS},
    exports,
    refinement::{described, same_bench, Compared},
    shrink::Shrink,
    spoil::{self, first_due, short_of, spoil, Due, SPOILS},
    written::Written,
    KINDS,
};
use reference::{
    file::decode_onto,
    memory::Bench,
    mesh::{Kind, Mesh, Sizes},
    random::{self, Bounds, Rng},
};
use std::fmt;

/// What reads: the library, or in tests something that goes wrong on purpose. All that is lent could change, so that a comparison sees
/// what doesn't.
pub type Engine<'a> = &'a dyn Fn(&mut [u8], &mut Bench, &mut Bench) -> Told;

/// One call of reading.
#[derive(Clone, Debug)]
pub struct Reading {
    pub written: Written,
    /// Lent words of each slice on the first bench, and on the second.
    pub first: [usize; 8],
    pub second: [usize; 8],
    /// The seed of all lent words.
    pub fill: u64,
}

impl Reading {
    /// A mesh's own file, with so many cells of each list.
    pub fn new(mesh: Mesh, cells: &Sizes) -> Reading {
        let words = words_for(mesh.kind, cells);
        Reading {
            written: Written {
                mesh,
                edits: vec![],
            },
            first: words,
            second: words,
            fill: 0,
        }
    }

    fn benches(&self) -> (Bench, Bench) {
        let mut rng = Rng::new(self.fill);
        (
            any_bench(&mut rng, self.first),
            any_bench(&mut rng, self.second),
        )
    }
}

/// The answer that is due, with the first bench afterwards.
fn due(file: &[u8], first: &Bench, second: &Bench) -> (Told, Bench) {
    let mut after = first.clone();
    let (number, answer) = match decode_onto(file, first, second) {
        Err(number) => (number, [0; 8]),
        Ok(mesh) => {
            after.put(&mesh);
            let [verts, points, lines, areas, volumes, curves, steps] = mesh.sizes().list();
            let kind = mesh.kind.byte().into();
            let words = [kind, verts, points, lines, areas, volumes, curves, steps];
            (0, words)
        }
    };
    (Told { number, answer }, after)
}

/// Both sides on a file and two benches: the number on which they agree, or in words where they first differ.
fn differs_on(file: &[u8], (first, second): &(Bench, Bench), engine: Engine) -> Result<u8, String> {
    let (due, expected) = due(file, first, second);
    let (mut bytes, mut ours, mut other) = (file.to_vec(), first.clone(), second.clone());
    let told = engine(&mut bytes, &mut ours, &mut other);
    if told != due {
        return Err(format!(
            "the answer is {told:?}, and by the reference {due:?}"
        ));
    }
    same_bench("the first bench's", &ours, &expected)?;
    same_bench("the second bench's", &other, second)?;
    if bytes != file {
        return Err("the file is another".into());
    }
    Ok(due.number)
}

pub fn differs(reading: &Reading, engine: Engine) -> Result<u8, String> {
    differs_on(&reading.written.bytes(), &reading.benches(), engine)
}

impl fmt::Display for Reading {
    fn fmt(&self, f: &mut fmt::Formatter) -> fmt::Result {
        writeln!(
            f,
            "words lent: first bench {:?}, second {:?}, filled from seed {}",
            self.first, self.second, self.fill
        )?;
        self.written.fmt(f)
    }
}

/// On a smaller file; or on benches whose words are drawn from seed 0.
impl Shrink for Reading {
    fn smaller(&self) -> Vec<Reading> {
        let on = |written| Reading {
            written,
            ..self.clone()
        };
        let mut found: Vec<Reading> = self.written.smaller().into_iter().map(on).collect();
        if self.fill > 0 {
            found.push(Reading {
                fill: 0,
                ..self.clone()
            });
        }
        found
    }
}

/// So many files of both kinds; stops at the first on which the two sides differ, or for which the reference has another answer than
/// the one that is due by the way the file was made.
pub fn compare(engine: Engine, seed: u64, cases: u64) -> Compared {
    Compared::of(seed, cases, |rng, found| {
        let (drawn, due) = draw(rng);
        match differs(&drawn.case, engine) {
            Ok(number) => match wrong(&drawn.case, due, number) {
                None => count(found, &drawn, due, number),
                wrong => found.apart = wrong,
            },
            Err(_) => found.apart = Some(described(drawn.case, |c| differs(c, engine).err())),
        }
    })
}

/// The library against the reference.
pub fn library(seed: u64, cases: u64) -> Compared {
    compare(&exports::read, seed, cases)
}

/// Another number than the one that is due.
fn wrong(reading: &Reading, due: Option<Due>, number: u8) -> Option<String> {
    let expected = match due {
        _ if reading.first != reading.second => Some(9),
        Some(due) => due.number,
        None => Some(0),
    };
    (expected.unwrap_or(number) != number).then(|| {
        format!("{reading}by the way the file was made {expected:?} is due for {due:?}, and by the reference {number}")
    })
}

/// One file: one in two has something wrong. With it comes what is met first of that.
fn draw(rng: &mut Rng) -> (Drawn<Reading>, Option<Due>) {
    let kind = rng.pick(&KINDS);
    let bounds = Bounds {
        verts: rng.pick(&[1, 4, 9]),
        elements: rng.pick(&[1, 2, 5]),
        ..Bounds::default()
    };
    let mesh = random::mesh(rng, kind, &bounds);
    let (lending, cells) = lending(rng, &mesh);
    let mut reading = Reading::new(mesh, &cells);
    reading.fill = rng.draw();
    let mut dues: Vec<Due> = short_of(&reading.written, &cells).into_iter().collect();
    let damages = damages(rng, 2, &THINGS, |rng, which| {
        if which < SPOILS.len() {
            dues.push(spoil(rng, &mut reading.written, &cells, which)?);
        } else {
            let slice = rng.below(8);
            other_length(rng, &mut reading.second[slice], row_words(kind)[slice]);
        }
        Some(())
    });
    free_words(rng, kind, &mut reading);
    let drawn = Drawn {
        case: reading,
        lending,
        damages,
    };
    (drawn, first_due(&dues))
}

/// All that can be wrong with a call.
const THINGS: [&str; SPOILS.len() + 1] = spoil::and(&["unequal benches"]);

/// More cells than the mesh needs, exactly as many, or one too few of a list.
fn lending(rng: &mut Rng, mesh: &Mesh) -> (String, Sizes) {
    let mut cells: Cells = [0; 8];
    cells[..7].copy_from_slice(&mesh.sizes().list());
    let list = rng.below(7);
    let name = match rng.below(4) {
        0 => {
            cells = cells.map(|n| n + rng.below(9));
            "more than is needed".into()
        }
        1 if cells[list] > 0 => {
            cells[list] -= 1;
            format!("one short of {}", LISTS[list])
        }
        _ => "what is needed".into(),
    };
    (name, sizes(&cells))
}

/// Words too few for a row of the mesh's kind, as many on both benches or not; and more cells in one of the vertices' two slices.
fn free_words(rng: &mut Rng, kind: Kind, reading: &mut Reading) {
    if !rng.once_in(3) {
        return;
    }
    let equal = rng.once_in(2);
    for (slice, row) in row_words(kind).into_iter().enumerate() {
        let words = rng.below(row);
        reading.first[slice] += words;
        reading.second[slice] += if equal { words } else { rng.below(row) };
    }
    if rng.once_in(2) {
        let slice = rng.below(2);
        let cells = rng.below(3) * row_words(kind)[slice];
        reading.first[slice] += cells;
        reading.second[slice] += if equal { cells } else { 0 };
    }
}

fn count(found: &mut Compared, drawn: &Drawn<Reading>, due: Option<Due>, number: u8) {
    found.met(format!("answer {number}"), 1);
    found.drawn(drawn, number);
    let reading = &drawn.case;
    if let Some(way) = unequal(reading.written.mesh.kind, reading.first, reading.second) {
        found.met(format!("{way}: {number}"), 1);
    }
    match due {
        Some(due) if due.number == Some(number) => {
            found.met(format!("{number} at {}", due.place.field), 1);
        }
        None if number == 0 => {
            let verts = reading.written.mesh.verts.iter();
            let largest = |bits: &u32| f32::from_bits(*bits).abs() == 1024.;
            let largest = verts.flat_map(|v| v.bits).filter(largest).count();
            found.met(LARGEST, largest as u64);
        }
        _ => {}
    }
}

const LARGEST: &str = "coordinates of 1,024 or -1,024 that are read";

#[cfg(test)]
mod tests {
    use super::*;
    use crate::{
        case::UNEQUAL,
        desk::{flip, slices_mut},
        geometries::opened,
        refinement::tests::piled,
        written::{Edit, Field},
    };
    use reference::{
        file::{decode, encode},
        mesh::LIMIT,
    };

    const CASES: u64 = 20_000;

    /// The classes that no run may miss: every answer, every way of lending, everything that can be wrong, and each field as the place
    /// of each refusal that it can bring.
    fn wanted() -> Vec<String> {
        let mut classes: Vec<String> = THINGS.iter().map(|c| (*c).into()).collect();
        classes.extend((0..=10).map(|n| format!("answer {n}")));
        classes.push("more than is needed: 0".into());
        classes.push("what is needed: 0".into());
        classes.extend(LISTS[..7].iter().map(|l| format!("one short of {l}: 10")));
        classes.extend(UNEQUAL.map(|way| format!("{way}: 9")));
        classes.push(LARGEST.into());
        let counts = (0..6).map(Field::Count);
        let elements = (2..5).flat_map(|list| [Field::Corner(list), Field::Parity(list)]);
        let others = [
            Field::Version,
            Field::Kind,
            Field::Flags,
            Field::Tag,
            Field::K,
            Field::Point,
            Field::CurveTag,
            Field::Length,
            Field::CurveVertex,
            Field::Step,
            Field::End,
        ];
        let fields = counts.chain(elements).chain((0..4).map(Field::Coordinate));
        for field in fields.chain(others) {
            let numbers: &[u8] = match field {
                Field::Version => &[1, 3],
                Field::Kind => &[2, 3],
                Field::Count(_) => &[3, 10],
                Field::Coordinate(_) => &[3, 6],
                Field::Flags | Field::Parity(_) | Field::Step => &[3, 5],
                Field::Point | Field::Corner(_) | Field::CurveVertex => &[3, 7],
                Field::Length => &[3, 8, 10],
                Field::Tag | Field::K | Field::CurveTag => &[3],
                Field::End => &[4],
            };
            classes.extend(numbers.iter().map(|n| format!("{n} at {field}")));
        }
        classes
    }

    #[test]
    fn files_are_read_as_by_the_reference() {
        let found = library(1, CASES);
        found.is_whole(CASES, wanted().into_iter().map(|class| (class, 5)));
    }

    /// A small file with every field there is: each byte made each other byte, and cut at each length, with lists exactly full and with
    /// cells to spare.
    #[test]
    fn every_byte_and_every_length_of_a_small_file() {
        for kind in KINDS {
            let mesh = piled(kind, &sizes(&[2, 1, 1, 1, 1, 2, 4, 0]));
            for spare in [0, 300] {
                let mut cells: Cells = [spare; 8];
                for (cells, size) in cells.iter_mut().zip(mesh.sizes().list()) {
                    *cells += size;
                }
                let reading = Reading::new(mesh.clone(), &sizes(&cells));
                let (file, benches) = (reading.written.bytes(), reading.benches());
                let mut met = [0; 11];
                let mut try_one = |file: &[u8]| {
                    let number = differs_on(file, &benches, &exports::read);
                    let number = number.unwrap_or_else(|why| panic!("{file:02X?}: {why}"));
                    met[usize::from(number)] += 1;
                    number
                };
                for at in 0..file.len() {
                    let mut spoiled = file.clone();
                    for byte in 0..=255 {
                        spoiled[at] = byte;
                        try_one(&spoiled);
                    }
                    assert_eq!(try_one(&file[..at]), 3, "cut at {at}");
                }
                assert_eq!(try_one(&file), 0);
                for (number, times) in met.iter().enumerate() {
                    assert_eq!(*times > 0, number != 9, "{kind:?}, {number}: {met:?}");
                }
            }
        }
    }

    /// The same through a geometry, which is lent what it needs: each byte made one that is no parity and one that is no flags, and cut at
    /// each length.
    #[test]
    fn a_small_file_as_a_geometry() {
        for kind in KINDS {
            let file = encode(&piled(kind, &sizes(&[2, 1, 1, 1, 1, 2, 4, 0])));
            let mut met = [0; 11];
            let mut try_one = |file: &[u8]| {
                let number = opened(file).unwrap_or_else(|why| panic!("{file:02X?}: {why}"));
                met[usize::from(number)] += 1;
            };
            for at in 0..file.len() {
                let mut spoiled = file.clone();
                for byte in [2, 255] {
                    spoiled[at] = byte;
                    try_one(&spoiled);
                }
                try_one(&file[..at]);
            }
            try_one(&file);
            try_one(&[&file[..], &[0]].concat());
            for number in [0, 1, 2, 3, 4, 5, 6, 7, 10] {
                assert!(met[number] > 0, "{kind:?}, {number}: {met:?}");
            }
        }
    }

    /// The limit of curve vertices is for all curves together, whatever is lent.
    #[test]
    fn curves_at_the_limit_and_beyond() {
        let lent = sizes(&[1, 0, 0, 0, 0, 3, LIMIT + 9, 0]);
        for (beyond, expected) in [(0, 0), (1, 10)] {
            let mesh = piled(
                Kind::Cubes,
                &Sizes {
                    curve_verts: LIMIT + beyond,
                    ..lent
                },
            );
            let reading = Reading::new(mesh, &lent);
            assert_eq!(differs(&reading, &exports::read), Ok(expected));
        }
    }

    /// A count alone, with nothing behind it: 3 where the cells and the limit allow it, else 10.
    #[test]
    fn counts_are_judged_before_their_entries() {
        for (lent, count, expected) in [
            (LIMIT + 9, LIMIT, 3),
            (LIMIT + 9, LIMIT + 1, 10),
            (LIMIT + 9, u32::MAX as usize, 10),
            (LIMIT - 1, LIMIT, 10),
            (LIMIT - 1, LIMIT - 1, 3),
        ] {
            let mut reading = Reading::new(
                Mesh::empty(Kind::Simplices),
                &sizes(&[lent, 0, 0, 0, 0, 0, 0, 0]),
            );
            let count = (count as u32).to_be_bytes().to_vec();
            reading.written.edits = vec![Edit::Put(2, count), Edit::Cut(6)];
            assert_eq!(differs(&reading, &exports::read), Ok(expected));
        }
    }

    type Spoil = fn(&mut Told, &mut [u8], &mut Bench, &mut Bench);

    /// The library, and afterwards something is spoiled.
    fn spoiled(spoil: Spoil) -> impl Fn(&mut [u8], &mut Bench, &mut Bench) -> Told {
        move |file, first, second| {
            let mut told = exports::read(file, first, second);
            spoil(&mut told, file, first, second);
            told
        }
    }

    /// A wrong word in any slice, at its start or at its end, one that a refusal leaves, one on the second bench, a wrong byte and a
    /// wrong answer are found.
    #[test]
    fn wrong_readings_are_noticed() {
        for slice in 0..8 {
            for end in [false, true] {
                let engine = |file: &mut [u8], first: &mut Bench, second: &mut Bench| {
                    let told = exports::read(file, first, second);
                    let words = &mut slices_mut(first)[slice];
                    flip(if end {
                        words.last_mut()
                    } else {
                        words.first_mut()
                    });
                    told
                };
                let found = compare(&engine, 1, 1_000);
                assert!(found.apart.is_some(), "slice {slice} goes unnoticed");
            }
        }
        let spoils: [Spoil; 7] = [
            |told, _, first, _| flip(first.pos.first_mut().filter(|_| told.number == 4)),
            |told, _, first, _| flip(first.curve_verts.last_mut().filter(|_| told.number == 9)),
            |_, _, _, second| flip(second.marks.last_mut()),
            |_, file, _, _| file.iter_mut().take(1).for_each(|byte| *byte ^= 1),
            |told, _, _, _| told.number ^= u8::from(told.number == 10),
            |told, _, _, _| told.answer[0] ^= usize::from(told.number == 0),
            |told, _, _, _| told.answer[7] += usize::from(told.number == 8),
        ];
        for (i, spoil) in spoils.into_iter().enumerate() {
            let found = compare(&spoiled(spoil), 1, 1_000);
            assert!(found.apart.is_some(), "{i} goes unnoticed");
        }
    }

    /// What shows a fault is made as small as it can be: files with areas that are refused are shown by one vertex and one area.
    #[test]
    fn the_smallest_file_is_found() {
        let fault: Spoil = |told, file, _, _| {
            let areas = |file: &[u8]| decode(file, &Sizes::all(99)).map_or(0, |m| m.areas.len());
            told.number = if areas(file) > 0 { 5 } else { told.number };
        };
        let found = compare(&spoiled(fault), 1, 1_000);
        let apart = found.apart.expect("an area is refused");
        let file = apart.lines().nth(1).unwrap_or_default();
        let one = "00000001 00000000 00000000 00000000 00000000 00 00000000 00000000";
        assert!(file.contains(one), "{apart}");
        assert!(file.matches("00000001").count() <= 2, "{apart}");
    }
}

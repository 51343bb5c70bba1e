//! Compares the static library `aljumeste`, called through the crate of that name, with Rust's own arithmetic, bit for bit, where a NaN
//! equals any NaN, and with the original refinements, triangulation and normals in reference/.
//!
//! `all` takes the root of every one of the 2^32 patterns. `spread` takes the roots of a million patterns and normalises a million
//! vectors of three and of four components. `KIND SEED COUNT` refines so many random meshes of a kind, cubes or simplices; `ENTRY SEED
//! COUNT` cuts or shades so many, with triangulation, normals3 or normals4. `geometry SEED COUNT` does all of it through the crate's
//! geometries, for so many of each kind. `file SEED COUNT` reads so many files of both kinds, and `sheet SEED COUNT` gives so many inputs
//! to the program of that name. `stored files` writes the files that the program `replay` reads, and `stored answers` what it must print.
//! `bench` measures speed. `ledger SEED COUNT` refines so many meshes of each kind, and holds the ledgers of what is left against document
//! 01's section 5. `chain SEED COUNT` refines so many meshes of cubes, cuts what is left and refines that, and holds document 02's U8 against it.
//! `turning SEED COUNT` shades so many meshes in 3D and in 4D, and the same with every parity changed, and holds document 02's U5 against both.
#![forbid(unsafe_code)]

mod bench;
mod block;
mod case;
mod chain;
mod closed;
mod crafted;
mod damage;
mod derived;
mod desk;
mod draw;
mod exports;
#[cfg(test)]
mod figures;
mod geometries;
mod geometry;
mod ledger;
mod normal;
mod program;
mod random;
mod reading;
mod refinement;
mod root;
mod sheet;
mod shrink;
mod spoil;
mod stored;
mod turning;
#[cfg(test)]
mod worked;
mod written;

use derived::{Entry, ENTRIES};
use reference::mesh::Kind;
use std::{
    env,
    fmt::Debug,
    io::{self, Write},
    process::ExitCode,
};

/// What a comparison found: how many inputs there were, on how many the two sides differ, and the first of those, in words.
#[derive(Debug, Default, PartialEq)]
pub struct Compared {
    pub inputs: u64,
    pub apart: u64,
    pub first: Option<String>,
}

impl Compared {
    /// One input more. `describe` is asked only at the first one on which the two sides differ.
    fn input(&mut self, equal: bool, describe: impl FnOnce() -> String) {
        self.inputs += 1;
        if !equal {
            self.apart += 1;
            self.first.get_or_insert_with(describe);
        }
    }

    /// This comparison and the one of the inputs that come after.
    fn then(self, after: Compared) -> Compared {
        Compared {
            inputs: self.inputs + after.inputs,
            apart: self.apart + after.apart,
            first: self.first.or(after.first),
        }
    }

    fn print(&self, what: &str) {
        println!("{what}: {} compared, {} differ", self.inputs, self.apart);
        if let Some(first) = &self.first {
            println!("first that differs: {first}");
        }
    }
}

/// Bit for bit, and a NaN equals any NaN.
fn same(a: f32, b: f32) -> bool {
    a.to_bits() == b.to_bits() || (a.is_nan() && b.is_nan())
}

fn main() -> ExitCode {
    let words: Vec<String> = env::args().skip(1).collect();
    let agree = match words.iter().map(String::as_str).collect::<Vec<_>>()[..] {
        ["all"] => print(&[("roots", root::all())]),
        ["spread"] => print(&[
            ("roots", root::spread()),
            ("normals of 3 components", normal::spread3()),
            ("normals of 4 components", normal::spread4()),
        ]),
        ["stored", "files"] => written(&stored::stored().files),
        ["stored", "answers"] => written(stored::stored().answers.as_bytes()),
        ["bench"] => {
            KINDS.into_iter().for_each(bench::tables);
            bench::lines();
            ENTRIES
                .into_iter()
                .for_each(|(_, entry)| bench::table(entry));
            Some(true)
        }
        ["bench", "lines"] => {
            bench::lines();
            Some(true)
        }
        ["bench", entry] => entry_named(entry).map(|entry| {
            bench::table(entry);
            true
        }),
        ["bench", "one", what, size, side] => counted(what, size, side),
        ["ledger"] => both(KINDS, "1", "3000", ledger::compare),
        ["ledger", seed, cases] => both(KINDS, seed, cases, ledger::compare),
        ["chain", seed, cases] => chained(seed, cases),
        ["turning", seed, cases] => both(NORMALS, seed, cases, turning::library),
        ["geometry", seed, cases] => both(KINDS, seed, cases, geometries::compare),
        [what, seed, cases] => compared(what, seed, cases),
        _ => None,
    };
    match agree {
        Some(true) => ExitCode::SUCCESS,
        Some(false) => ExitCode::from(1),
        None => {
            eprintln!("usage: cargo run --release -- all | spread | WHAT SEED COUNT | stored files | stored answers | bench [ENTRY | lines] | bench one WHAT SIZE SIDE | ledger [SEED COUNT] | chain SEED COUNT | turning SEED COUNT | geometry SEED COUNT");
            eprintln!("KIND is cubes or simplices, ENTRY triangulation, normals3 or normals4, WHAT either, file or sheet, SIDE library, original or none");
            ExitCode::from(2)
        }
    }
}

/// Writes bytes as they are: whether that went well.
fn written(bytes: &[u8]) -> Option<bool> {
    Some(io::stdout().write_all(bytes).is_ok())
}

/// Prints what each comparison found: whether all agree.
fn print(found: &[(&str, Compared)]) -> Option<bool> {
    for (what, compared) in found {
        compared.print(what);
    }
    Some(found.iter().all(|(_, compared)| compared.apart == 0))
}

/// Prints what a comparison of random meshes found: whether all agree. None where a word is not understood.
fn compared(what: &str, seed: &str, cases: &str) -> Option<bool> {
    let (seed, cases) = (seed.parse().ok()?, cases.parse().ok()?);
    let found = match (what, entry_named(what)) {
        ("file", _) => reading::library(seed, cases),
        ("sheet", _) => sheet::program(seed, cases),
        (_, Some(entry)) => derived::library(entry, seed, cases),
        _ => refinement::library(kind_named(what)?, seed, cases),
    };
    found.print();
    Some(found.apart.is_none())
}

/// Prints what random meshes showed, of both kinds or through both normals: whether all are as they should be.
fn both<T: Copy + Debug>(
    sides: [T; 2],
    seed: &str,
    cases: &str,
    compare: fn(T, u64, u64) -> refinement::Compared,
) -> Option<bool> {
    let (seed, cases) = (seed.parse().ok()?, cases.parse().ok()?);
    let agree = sides.map(|side| {
        let found = compare(side, seed, cases);
        println!("{side:?}:");
        found.print();
        found.apart.is_none()
    });
    Some(agree == [true; 2])
}

/// Prints what random chains showed: whether all are as they should be.
fn chained(seed: &str, cases: &str) -> Option<bool> {
    let found = chain::compare(seed.parse().ok()?, cases.parse().ok()?);
    found.print();
    Some(found.apart.is_none())
}

fn counted(what: &str, size: &str, side: &str) -> Option<bool> {
    let size = size.parse().ok()?;
    let done = match entry_named(what) {
        Some(entry) => bench::one_derived(entry, size, side),
        None => bench::one(kind_named(what)?, size, side),
    };
    done.map(|()| true)
}

fn kind_named(name: &str) -> Option<Kind> {
    match name {
        "cubes" => Some(Kind::Cubes),
        "simplices" => Some(Kind::Simplices),
        _ => None,
    }
}

fn entry_named(name: &str) -> Option<Entry> {
    let found = ENTRIES.into_iter().find(|(known, _)| *known == name);
    found.map(|(_, entry)| entry)
}

const KINDS: [Kind; 2] = [Kind::Simplices, Kind::Cubes];
const NORMALS: [Entry; 2] = [Entry::Normals3, Entry::Normals4];

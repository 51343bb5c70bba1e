//! How long the geometries of the crate `aljumeste` take, and what memory, beside those of the original Rust in oracle/reference: a geometry
//! goes in and a geometry comes out, so that lending and copying are counted in.
//!
//! `cargo run --release` prints a row a mesh: the ratio of the times first, beside it that of the instructions, which callgrind counts and
//! which don't vary from run to run; then times, instructions and memory. A word after it takes the works alone that begin with it. `one
//! WORK SIZE SIDE CALLS` does one work, for callgrind and for the memory.
#[path = "../../../oracle/src/block.rs"]
mod block;
#[path = "../../../oracle/src/crafted.rs"]
mod crafted;
#[path = "../../../oracle/src/geometry.rs"]
mod geometry;
mod work;

use std::{
    env, fs,
    process::Command,
    time::{Duration, Instant},
};
use work::{Side, Work, WORKS};

/// Each side runs at least so often; and more often, while all of it takes no longer than this.
const RUNS: u32 = 5;
const MOST: Duration = Duration::from_secs(2);

/// A mesh that is counted under callgrind has at most so many entries.
const COUNTED: usize = 200_000;

fn main() {
    let words: Vec<String> = env::args().skip(1).collect();
    match words.iter().map(String::as_str).collect::<Vec<_>>()[..] {
        [] => table(""),
        [works] => table(works),
        ["one", work, size, side, calls] => one(work, size, side, calls),
        _ => eprintln!("usage: cargo run --release [-- WORKS | one WORK SIZE SIDE CALLS]"),
    }
}

fn table(works: &str) {
    println!("| time, ours / original | instructions, ours / original | work | size | entries | ours, an entry | original, an entry | instructions, an entry | original's | ours | original | memory | original's |");
    println!("|{}", "---|".repeat(13));
    for (name, sizes) in beginning_with(works) {
        for size in sizes {
            row(name, *size);
        }
    }
}

fn row(name: &str, size: u32) {
    let work = Work::new(name, size);
    let (ours, theirs) = best(&work);
    let each = |took: Duration| took.as_secs_f64() * 1e9 / work.entries as f64;
    let us = |took: Duration| took.as_secs_f64() * 1e6;
    let [ratio, counted, original_counted] = instructions(name, size, work.entries);
    let memory = Side::BOTH.map(|side| child(&mut own(), name, size, side, 1).0);
    println!(
        "| {:.2} | {ratio} | {name} | {size} | {} | {:.1} ns | {:.1} ns | {counted} | {original_counted} | {:.1} µs | {:.1} µs | {} KB | {} KB |",
        us(ours) / us(theirs),
        work.entries,
        each(ours),
        each(theirs),
        us(ours),
        us(theirs),
        memory[0],
        memory[1],
    );
}

fn beginning_with(works: &str) -> impl Iterator<Item = (&'static str, &'static [u32])> + '_ {
    (WORKS.into_iter()).filter(move |(name, _)| name.starts_with(works))
}

/// The best time of each side; they take turns, so that what disturbs one disturbs the other.
fn best(work: &Work) -> (Duration, Duration) {
    let (mut ours, mut theirs) = (Duration::MAX, Duration::MAX);
    let (mut runs, began) = (0, Instant::now());
    while runs < RUNS || began.elapsed() < MOST {
        ours = ours.min(work.run(Side::Ours, true));
        theirs = theirs.min(work.run(Side::Original, true));
        runs += 1;
    }
    (ours, theirs)
}

/// The ratio of the instructions, and those of each side for an entry; nothing where there is no valgrind. What is done before the call is
/// counted by itself and taken off.
fn instructions(name: &str, size: u32, entries: usize) -> [String; 3] {
    let here = || Command::new("valgrind").arg("--version").output().is_ok();
    if entries > COUNTED || !here() {
        return ["", "", ""].map(String::from);
    }
    let [ours, theirs] = Side::BOTH.map(|side| {
        let count = |calls| child(&mut under_callgrind(), name, size, side, calls).1;
        (count(1) - count(0)) as f64
    });
    let each = |count: f64| format!("{:.0}", count / entries as f64);
    [format!("{:.2}", ours / theirs), each(ours), each(theirs)]
}

fn own() -> Command {
    Command::new(env::current_exe().expect("a program has a path"))
}

fn under_callgrind() -> Command {
    let mut valgrind = Command::new("valgrind");
    valgrind
        .args(["--tool=callgrind", "--callgrind-out-file=/dev/null"])
        .arg(env::current_exe().expect("a program has a path"));
    valgrind
}

/// Does a work in a process of its own: the memory in KB that it grew by, and the instructions where callgrind has counted them.
fn child(program: &mut Command, work: &str, size: u32, side: Side, calls: u32) -> (u64, u64) {
    let words = [&size.to_string(), side.name(), &calls.to_string()].map(String::from);
    let done = program
        .args(["one", work])
        .args(words)
        .output()
        .expect("the program can be started");
    assert!(done.status.success(), "{work} {size}: {done:?}");
    let number = |text: &[u8], after: &str| {
        let text = String::from_utf8_lossy(text);
        let found = text.lines().find_map(|line| line.split_once(after));
        found.map_or(0, |(_, number)| number.trim().parse().unwrap_or(0))
    };
    (
        number(&done.stdout, "grew by"),
        number(&done.stderr, "Collected :"),
    )
}

fn one(work: &str, size: &str, side: &str, calls: &str) {
    let work = Work::new(work, size.parse().expect("a size"));
    let before = memory_anew("VmRSS");
    work.run(Side::named(side), calls != "0");
    println!("grew by {}", memory("VmHWM").saturating_sub(before));
}

/// The memory that this process has, and the peak begins there.
fn memory_anew(word: &str) -> u64 {
    // Where the system does not allow it, the peak of what went before counts for both sides.
    let _ = fs::write("/proc/self/clear_refs", "5");
    memory(word)
}

fn memory(word: &str) -> u64 {
    let status = fs::read_to_string("/proc/self/status").unwrap_or_default();
    let line = status.lines().find(|line| line.starts_with(word));
    line.and_then(|line| line.split_whitespace().nth(1)?.parse().ok())
        .unwrap_or(0)
}

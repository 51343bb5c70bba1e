//! The reference by words:
//!
//! - `sheet`: an input (depth byte, smooth_time byte, file) from standard input; the listing or `refused N after P`.
//! - `strands`, `triangulate`, `replaced`, `normals3`, `normals4`: the same input; a listing of what the refined mesh gives.
//! - `turned`, `turned3`, `turned4`: the same input; the listing of the refined mesh with every parity changed, and of its normals.
//! - `random KIND SEED COUNT [VERTS ELEMENTS DEPTH DAMAGED]`: COUNT inputs as hexadecimal, one a line; KIND is `cubes`
//!   or `simplices`; one input in DAMAGED is damaged, none at 0.
//! - `answers [WORD]`: such lines from standard input; each one's output as hexadecimal. WORD is any of those above but `random`.

use std::{
    env,
    io::{self, BufRead, BufWriter, Read, Write},
    process::ExitCode,
};

use reference::{
    mesh::Kind,
    random::{self, Bounds, Rng},
    sheet::{Sheet, MOST_BYTES},
};

const USAGE: &str =
    "usage: reference sheet | strands | triangulate | replaced | normals3 | normals4 | turned | turned3 | turned4 < INPUT
       reference random cubes|simplices SEED COUNT [VERTS ELEMENTS DEPTH DAMAGED]
       reference answers [sheet|strands|triangulate|replaced|normals3|normals4|turned|turned3|turned4] < HEX LINES";

fn main() -> ExitCode {
    let args: Vec<String> = env::args().skip(1).collect();
    let words: Vec<&str> = args.iter().map(String::as_str).collect();
    let done = match words[..] {
        ["random", kind, seed, count, ref bounds @ ..] => print_random(kind, seed, count, bounds),
        ["answers"] => print_answers(Sheet::Mesh),
        ["answers", word] => Sheet::named(word).map_or_else(|| Err(wrong(USAGE)), print_answers),
        [word] => Sheet::named(word).map_or_else(|| Err(wrong(USAGE)), print_sheet),
        _ => Err(wrong(USAGE)),
    };
    match done {
        Ok(()) => ExitCode::SUCCESS,
        Err(error) if error.kind() == io::ErrorKind::BrokenPipe => ExitCode::SUCCESS,
        Err(error) => {
            eprintln!("{error}");
            ExitCode::from(2)
        }
    }
}

fn wrong(text: &str) -> io::Error {
    io::Error::new(io::ErrorKind::InvalidInput, text)
}

/// One byte beyond the most is enough to refuse, so that an endless input ends too.
fn print_sheet(sheet: Sheet) -> io::Result<()> {
    let mut input = vec![];
    io::stdin()
        .lock()
        .take(MOST_BYTES as u64 + 1)
        .read_to_end(&mut input)?;
    io::stdout().lock().write_all(sheet.of(&input).as_bytes())
}

fn print_random(kind: &str, seed: &str, count: &str, bounds: &[&str]) -> io::Result<()> {
    fn number<T: std::str::FromStr>(text: &str) -> io::Result<T> {
        text.parse().map_err(|_| wrong(USAGE))
    }

    let kind = match kind {
        "cubes" => Kind::Cubes,
        "simplices" => Kind::Simplices,
        _ => return Err(wrong(USAGE)),
    };
    let bounds = match bounds {
        [] => Bounds::default(),
        [verts, elements, depth, damaged] => Bounds {
            verts: number::<usize>(verts)?.max(1),
            elements: number(elements)?,
            depth: usize::from(number::<u8>(depth)?),
            damaged: number(damaged)?,
        },
        _ => return Err(wrong(USAGE)),
    };
    let mut rng = Rng::new(number(seed)?);
    let mut out = BufWriter::new(io::stdout().lock());
    for _ in 0..number::<u64>(count)? {
        writeln!(out, "{}", hex(&random::input(&mut rng, kind, &bounds)))?;
    }
    out.flush()
}

fn print_answers(sheet: Sheet) -> io::Result<()> {
    let mut out = BufWriter::new(io::stdout().lock());
    for line in io::stdin().lock().lines() {
        let input = bytes(line?.trim()).ok_or_else(|| wrong("a line is not hexadecimal"))?;
        writeln!(out, "{}", hex(sheet.of(&input).as_bytes()))?;
    }
    out.flush()
}

fn hex(bytes: &[u8]) -> String {
    bytes.iter().map(|b| format!("{b:02X}")).collect()
}

fn bytes(hex: &str) -> Option<Vec<u8>> {
    let digits: Option<Vec<u32>> = hex.chars().map(|c| c.to_digit(16)).collect();
    let digits = digits?;
    (digits.len() % 2 == 0).then(|| digits.chunks(2).map(|d| (d[0] << 4 | d[1]) as u8).collect())
}

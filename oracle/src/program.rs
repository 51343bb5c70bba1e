//! Runs the program `sheet`: what it prints for what comes on its standard input, however that comes.
use std::{
    io::{self, Write},
    path::Path,
    process::{ChildStdin, Command, Stdio},
    sync::atomic::{AtomicBool, Ordering},
    thread,
};

/// Its place in the repository.
const PROGRAM: &str = concat!(env!("CARGO_MANIFEST_DIR"), "/../crates/sheet/out/sheet");

/// What writes to the program's standard input. It sees when the program has ended.
pub type Feed<'a> = &'a (dyn Fn(&mut ChildStdin, &AtomicBool) -> io::Result<()> + Sync);

/// What the program prints while it is fed. It need not read all, but it has to end by itself, in order, with nothing on standard error.
pub fn fed(feed: Feed) -> Result<String, String> {
    assert!(
        Path::new(PROGRAM).is_file(),
        "crates/sheet/out/sheet is missing: make it with `rt run`, run in the folder crates/sheet."
    );
    let mut child = Command::new(PROGRAM)
        .stdin(Stdio::piped())
        .stdout(Stdio::piped())
        .stderr(Stdio::piped())
        .spawn()
        .map_err(|error| format!("the program does not start: {error}"))?;
    let mut input = child.stdin.take().expect("its standard input is a pipe");
    let ended = AtomicBool::new(false);
    let (given, output) = thread::scope(|scope| {
        let giver = scope.spawn(|| {
            let given = feed(&mut input, &ended);
            drop(input);
            given
        });
        let output = child.wait_with_output();
        ended.store(true, Ordering::Relaxed);
        (giver.join().expect("a feed does not panic"), output)
    });
    match given {
        Err(error) if error.kind() != io::ErrorKind::BrokenPipe => return Err(error.to_string()),
        _ => {}
    }
    let output = output.map_err(|error| error.to_string())?;
    if !output.status.success() || !output.stderr.is_empty() {
        return Err(format!("it ends otherwise than in order: {output:?}"));
    }
    String::from_utf8(output.stdout).map_err(|error| error.to_string())
}

/// What it prints for an input.
pub fn printed(input: &[u8]) -> Result<String, String> {
    fed(&|pipe, _| pipe.write_all(input))
}

#[cfg(test)]
mod tests {
    use super::*;
    use crate::sheet::draw;
    use reference::{
        mesh::{Element, Kind, Mesh, Sizes, Vertex},
        random::Rng,
        sheet::{self, Sheet, CELLS, MOST_BYTES},
    };
    use std::time::{Duration, Instant};

    fn at(place: f32) -> Vertex {
        Vertex {
            bits: [place.to_bits(); 4],
            flags: 0,
            tag: 0,
            k: 0,
        }
    }

    /// An accepted input of exactly 65,536 bytes: vertices, triangles and tetrahedra fill their 1,024 cells, and lines and points the
    /// rest.
    fn largest() -> Vec<u8> {
        let corners = |corners: u32, i: u32| (0..corners).map(move |c| (i + c) % 1_024);
        let elements = |count: u32, size: u32| {
            let element = |i: u32| Element {
                corners: corners(size, i).collect(),
                parity: i % 2,
            };
            (0..count).map(element).collect()
        };
        let mesh = Mesh {
            points: vec![7, 1_023],
            lines: elements(1_020, 2),
            areas: elements(1_024, 3),
            volumes: elements(1_024, 4),
            verts: (0..1_024).map(|i| at(i as f32)).collect(),
            ..Mesh::empty(Kind::Simplices)
        };
        let input = sheet::input(0, false, &mesh);
        assert_eq!(input.len(), MOST_BYTES);
        input
    }

    const TOO_LONG: &str = "refused 10 after 0\n";

    /// 65,536 bytes are read. One more is refused by 10 before all else: the byte left over would be 4, and a wrong smooth_time 5.
    #[test]
    fn the_longest_input_and_one_byte_more() {
        let mut input = largest();
        let listing = printed(&input).unwrap();
        assert!(listing.starts_with("passes 0\n"));
        assert_eq!(listing, Sheet::Mesh.of(&input));
        input.push(0);
        assert_eq!(printed(&input).as_deref(), Ok(TOO_LONG));
        input[1] = 2;
        assert_eq!(printed(&input).as_deref(), Ok(TOO_LONG));
        input.pop();
        assert_eq!(printed(&input).as_deref(), Ok("refused 5 after 0\n"));
        assert_eq!(printed(&[]).as_deref(), Ok("refused 3 after 0\n"));
    }

    /// How long an input may be waited for.
    const PATIENCE: Duration = Duration::from_secs(20);

    fn late() -> io::Error {
        io::Error::new(io::ErrorKind::TimedOut, "the program waits for more")
    }

    /// Input that comes in small pieces, with pauses, is the same input.
    #[test]
    fn input_in_pieces() {
        let mut rng = Rng::new(3);
        for _ in 0..5 {
            let input = draw(&mut rng, |_| Sizes::all(CELLS)).0.case.bytes();
            let pieces: Vec<usize> = (0..input.len()).map(|_| 1 + rng.below(40)).collect();
            let feed = |pipe: &mut ChildStdin, _: &AtomicBool| {
                let mut rest = &input[..];
                for piece in &pieces {
                    let (now, later) = rest.split_at(rest.len().min(*piece));
                    pipe.write_all(now)?;
                    pipe.flush()?;
                    thread::sleep(Duration::from_millis(2));
                    rest = later;
                }
                Ok(())
            };
            assert_eq!(fed(&feed), Ok(Sheet::Mesh.of(&input)));
        }
        let largest = largest();
        let feed = |pipe: &mut ChildStdin, _: &AtomicBool| {
            for piece in largest.chunks(5_000) {
                pipe.write_all(piece)?;
                thread::sleep(Duration::from_millis(2));
            }
            Ok(())
        };
        assert_eq!(fed(&feed), Ok(Sheet::Mesh.of(&largest)));
    }

    /// Input without an end is refused, and the program ends.
    #[test]
    fn endless_input() {
        let feed = |pipe: &mut ChildStdin, _: &AtomicBool| {
            let start = Instant::now();
            while start.elapsed() < PATIENCE {
                pipe.write_all(&[1; 4_096])?;
            }
            Err(late())
        };
        assert_eq!(fed(&feed).as_deref(), Ok(TOO_LONG));
    }

    /// One byte too many is enough: nothing more comes, and the pipe stays open.
    #[test]
    fn silence_after_one_byte_too_many() {
        let feed = |pipe: &mut ChildStdin, ended: &AtomicBool| {
            pipe.write_all(&[0; MOST_BYTES + 1])?;
            let start = Instant::now();
            while !ended.load(Ordering::Relaxed) {
                if start.elapsed() > PATIENCE {
                    return Err(late());
                }
                thread::sleep(Duration::from_millis(2));
            }
            Ok(())
        };
        assert_eq!(fed(&feed).as_deref(), Ok(TOO_LONG));
    }
}

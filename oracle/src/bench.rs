//! How long a call takes: the library on lent words, and the original Rust's own `subdivide`, triangulation or normals on its geometry, on
//! the same mesh in the same run. Only the call is timed: words are lent and geometries are built before it, and let go after it.
use crate::{
    block::{block, sheet},
    case::Case,
    crafted::{anywhere, deep_in_one_bucket, in_one_bucket, in_one_chain, verts},
    derived::{Call, Entry},
    desk::Desk,
    draw::{needs, sizes},
    exports,
};
use reference::{
    geom::{CubeData, SimplexData, SimplicialGeometry},
    memory::Bench,
    mesh::{Curve, Kind, Mesh, Sizes, LIMIT},
};
use std::{
    hint::black_box,
    time::{Duration, Instant},
};

/// Each side runs at least so often; and more often, while all of it takes no longer than this.
const RUNS: u32 = 7;
const MOST: Duration = Duration::from_secs(3);

/// A desk is lent for so many runs, then a new one at another place.
const LENT_FOR: u32 = 16;

/// A mesh with what is lent for its refinement, and the sizes that are left.
struct Ready {
    name: String,
    case: Case,
    left: Sizes,
}

impl Ready {
    /// Lent just what is needed.
    fn new(name: String, mesh: Mesh, depth: u8) -> Ready {
        let cells = needs(&mesh, depth, true)[usize::from(depth)];
        let left = sizes(&cells);
        Ready {
            name,
            case: Case::new(mesh, &left, cells[7], depth, 1),
            left,
        }
    }

    /// Lent as much as the limits allow.
    fn with_all(self) -> Ready {
        let Case { given, depth, .. } = self.case;
        Ready {
            name: format!("{}, every list lent 1,048,576 cells", self.name),
            case: Case::new(given.mesh, &Sizes::all(LIMIT), LIMIT, depth, 1),
            left: self.left,
        }
    }

    /// The entries left, of all lists; a curve counts by its vertices.
    fn entries(&self) -> usize {
        self.left.list().iter().sum::<usize>() - self.left.curves
    }

    /// On a desk that may have been lent before, with whatever that run left in it.
    fn library(&self, desk: &mut Desk) -> Duration {
        let case = &self.case;
        desk.first.put(&case.given.mesh);
        let (told, took) = exports::timed_subdivide(
            case.given.mesh.kind,
            desk,
            &case.given.counts,
            case.depth,
            1,
        );
        assert_eq!((told.number, told.answer[1]), (0, self.left.verts));
        took
    }

    fn original(&self) -> Duration {
        let (mesh, depth) = (&self.case.given.mesh, self.case.depth);
        let (took, verts) = match mesh.kind {
            Kind::Cubes => {
                let mut geom = mesh.geometry::<4, 8, CubeData>();
                let began = Instant::now();
                geom.subdivide(true, depth);
                (began.elapsed(), geom.verts.len())
            }
            Kind::Simplices => {
                let mut geom = mesh.geometry::<3, 4, SimplexData>();
                let began = Instant::now();
                geom.subdivide(true, depth);
                (began.elapsed(), geom.verts.len())
            }
        };
        assert_eq!(verts, self.left.verts);
        took
    }

    fn print(&self) {
        let mut desk = self.case.desk();
        let times = best(
            |again| {
                if again {
                    desk = self.case.desk();
                }
                self.library(&mut desk)
            },
            || self.original(),
        );
        let mesh = format!("{} | {}", self.name, self.case.depth);
        row(&mesh, self.entries(), times);
    }
}

/// The best time of each side; they take turns, so that what disturbs one disturbs the other. The library's side is told when to lend
/// anew.
fn best(
    mut library: impl FnMut(bool) -> Duration,
    mut original: impl FnMut() -> Duration,
) -> (Duration, Duration) {
    let (mut ours, mut theirs) = (Duration::MAX, Duration::MAX);
    let (mut runs, began) = (0, Instant::now());
    while runs < RUNS || began.elapsed() < MOST {
        ours = ours.min(library(runs % LENT_FOR == LENT_FOR - 1));
        theirs = theirs.min(original());
        runs += 1;
    }
    (ours, theirs)
}

/// A row of a table: a mesh, so many entries, and the time of each side.
fn row(mesh: &str, entries: usize, (ours, theirs): (Duration, Duration)) {
    let each = |took: Duration| took.as_secs_f64() * 1e9 / entries as f64;
    let us = |took: Duration| took.as_secs_f64() * 1e6;
    println!(
        "| {:.2} | {mesh} | {entries} | {:.1} µs | {:.1} µs | {:.1} ns | {:.1} ns |",
        us(ours) / us(theirs),
        us(ours),
        us(theirs),
        each(ours),
        each(theirs)
    );
}

/// Tables, a row a mesh: how long the library takes beside the original, and what an entry that is left costs on each side.
pub fn tables(kind: Kind) {
    let heading = || heading("mesh | passes", "entries left");
    heading();
    // From some hundred to more than half a million tetrahedra left, or to a hundred thousand cubes.
    for n in [1, 2, 3, 4, 6, 8, 12] {
        let ready = Ready::new(String::new(), block(kind, n), 2);
        let name = format!("block, {} volumes left", ready.left.volumes);
        Ready { name, ..ready }.print();
    }
    println!();
    heading();
    // Deeper: from 3 passes on.
    for (n, depth) in [(1, 3), (2, 3), (4, 3), (1, 4), (2, 4), (1, 5)] {
        let ready = Ready::new(String::new(), block(kind, n), depth);
        let name = format!("block of {n}, {} volumes left", ready.left.volumes);
        Ready { name, ..ready }.print();
    }
    println!();
    heading();
    for ready in shapes(kind) {
        ready.print();
    }
    println!();
}

/// A table for lines that crowd one bucket of the book, beside lines that don't.
pub fn lines() {
    heading("mesh | passes", "entries left");
    for lines in [3_000, 30_000, 300_000] {
        for (name, mesh) in [
            ("anywhere", anywhere(lines)),
            ("in one chain", in_one_chain(lines)),
            ("in one bucket", in_one_bucket(lines)),
            (
                "deep in one bucket",
                deep_in_one_bucket(lines, verts(lines)),
            ),
        ] {
            Ready::new(format!("{lines} lines {name}"), mesh, 1).print();
        }
    }
    println!();
}

fn heading(mesh: &str, entries: &str) {
    println!("| library / original | {mesh} | {entries} | library | original | library, an entry | original, an entry |");
    let columns = 6 + mesh.split(" | ").count();
    println!("|{}", "---|".repeat(columns));
}

/// A table for triangulation or normals: meshes that grow, every list exactly full.
pub fn table(entry: Entry) {
    heading("mesh", "entries");
    let sizes = match entry {
        Entry::Triangulation => [3, 6, 12, 20, 32, 46],
        Entry::Normals3 => [7, 15, 30, 60, 120, 224],
        Entry::Normals4 => [3, 5, 8, 12, 18, 25],
    };
    for n in sizes {
        let call = measured(entry, n);
        let sizes = call.given.counts;
        let mesh = match entry {
            Entry::Triangulation => format!("block of {} cubes", sizes.volumes),
            Entry::Normals3 => format!("sheet of {} triangles", sizes.areas),
            Entry::Normals4 => format!("block of {} tetrahedra", sizes.volumes),
        };
        let mut handed = call.handed();
        let times = best(
            |again| {
                if again {
                    handed = call.handed();
                }
                derive(&call, &mut handed)
            },
            || derive_original(&call),
        );
        row(&mesh, entries(&call), times);
    }
    println!();
}

/// The mesh that an entry is measured on: a sheet for the normals of triangles, else a block.
fn measured(entry: Entry, n: u32) -> Call {
    let mesh = match entry {
        Entry::Normals3 => sheet(n),
        Entry::Triangulation | Entry::Normals4 => block(entry.kind(), n),
    };
    Call::new(entry, mesh)
}

/// The pieces that triangulation writes; or the elements that normals come from, and the vertices that have them.
fn entries(call: &Call) -> usize {
    let Sizes {
        verts,
        areas,
        volumes,
        ..
    } = call.given.counts;
    match call.entry {
        Entry::Triangulation => call.lent[0] / 4 + call.lent[1] / 5,
        Entry::Normals3 => areas + verts,
        Entry::Normals4 => volumes + verts,
    }
}

fn derive(call: &Call, (bench, lists): &mut (Bench, Vec<Vec<u32>>)) -> Duration {
    let (told, took) = exports::timed_derive(call.entry, bench, &call.given.counts, lists);
    assert_eq!(told.number, 0);
    took
}

fn derive_original(call: &Call) -> Duration {
    /// The result is let go after the time was taken.
    fn timed<G, T>(geom: G, run: impl Fn(G) -> T) -> Duration {
        let began = Instant::now();
        let made = run(geom);
        let took = began.elapsed();
        drop(black_box(made));
        took
    }
    let mesh = &call.given.mesh;
    match call.entry {
        Entry::Triangulation => timed(mesh.geometry::<4, 8, CubeData>(), SimplicialGeometry::from),
        Entry::Normals3 => timed(&mesh.geometry::<3, 4, SimplexData>(), |geom| {
            geom.compute_normals_3d()
        }),
        Entry::Normals4 => timed(&mesh.geometry::<3, 4, SimplexData>(), |geom| {
            geom.compute_normals_4d()
        }),
    }
}

/// Other meshes: where one list alone has entries, where nothing grows, and where far more is lent than is needed.
fn shapes(kind: Kind) -> Vec<Ready> {
    let lone = |name: &str, n: u32, depth: u8, keep: fn(&Mesh, &mut Mesh)| {
        let whole = block(kind, n);
        let mut mesh = Mesh {
            verts: whole.verts.clone(),
            ..Mesh::empty(kind)
        };
        keep(&whole, &mut mesh);
        Ready::new(name.into(), mesh, depth)
    };
    let small = || Ready::new("block of one cube".into(), block(kind, 1), 1);
    vec![
        lone("lines", 15, 3, |whole, m| m.lines = whole.lines.clone()),
        lone("areas", 20, 2, |whole, m| m.areas = whole.areas.clone()),
        lone("volumes", 7, 2, |whole, m| {
            m.volumes = whole.volumes.clone()
        }),
        lone("one curve", 22, 3, |whole, m| m.curves = vec![walk(whole)]),
        lone("points", 10, 255, |whole, m| {
            m.points = (0..whole.verts.len() as u32).collect()
        }),
        small(),
        small().with_all(),
    ]
}

/// A curve through all vertices.
fn walk(mesh: &Mesh) -> Curve {
    let verts: Vec<u32> = (0..mesh.verts.len() as u32).collect();
    Curve {
        tag: 0,
        steps: vec![0; verts.len()],
        verts,
    }
}

/// One refinement of a block by one side, for a tool that counts instructions. Words are lent and a geometry is built for either side, and
/// `none` does nothing more, so that the difference is the refinement's own.
pub fn one(kind: Kind, n: u32, side: &str) -> Option<()> {
    let ready = Ready::new("block".into(), block(kind, n), 2);
    let mut desk = ready.case.desk();
    let mesh = &ready.case.given.mesh;
    if side != "library" {
        // As the library's side does before its call.
        desk.first.put(mesh);
    }
    one_side(side, mesh, || ready.library(&mut desk), || ready.original())?;
    println!("{} entries left", ready.entries());
    Some(())
}

/// The same of triangulation or normals.
pub fn one_derived(entry: Entry, n: u32, side: &str) -> Option<()> {
    let call = measured(entry, n);
    let mut handed = call.handed();
    one_side(
        side,
        &call.given.mesh,
        || derive(&call, &mut handed),
        || derive_original(&call),
    )?;
    println!("{} entries", entries(&call));
    Some(())
}

/// Runs one side. The original builds a geometry of its own.
fn one_side(
    side: &str,
    mesh: &Mesh,
    library: impl FnOnce() -> Duration,
    original: impl FnOnce() -> Duration,
) -> Option<()> {
    let built = || match mesh.kind {
        Kind::Cubes => drop(black_box(mesh.geometry::<4, 8, CubeData>())),
        Kind::Simplices => drop(black_box(mesh.geometry::<3, 4, SimplexData>())),
    };
    match side {
        "library" => {
            built();
            library();
        }
        "original" => {
            original();
        }
        "none" => built(),
        _ => return None,
    }
    Some(())
}

//! What is measured: each work on both sides, from the same mesh.
use crate::{
    block::{block, sheet},
    crafted::{anywhere, deep_in_one_bucket, in_one_bucket, in_one_chain, verts},
    geometry::geometry,
};
use aljumeste::geom::{ElementData, Geometry};
use reference::{
    file,
    geom::{CubeData, SimplexData},
    mesh::{Kind, Mesh, Sizes, LIMIT},
};
use std::{
    hint::black_box,
    time::{Duration, Instant},
};

/// Each work with its sizes, from some hundred entries to more than a million: cubes along each side of a block, squares along each side of
/// a sheet, or lines.
pub const WORKS: [(&str, &[u32]); 11] = [
    ("refine simplices", &[1, 4, 8, 12]),
    ("refine cubes", &[1, 4, 8, 19]),
    ("lines anywhere", &LINES),
    ("lines in one chain", &LINES),
    ("lines in one bucket", &LINES),
    ("lines deep in one bucket", &LINES),
    ("triangulate", &[3, 8, 24, 54]),
    ("normals 3d", &[10, 64, 256, 640]),
    ("normals 4d", &[3, 8, 24, 54]),
    ("read cubes", &[4, 8, 24, 54]),
    ("read simplices", &[3, 8, 24, 50]),
];

const LINES: [u32; 3] = [3_000, 30_000, 300_000];

/// Whose work it is.
#[derive(Copy, Clone, PartialEq, Eq)]
pub enum Side {
    Ours,
    Original,
}

impl Side {
    pub const BOTH: [Side; 2] = [Side::Ours, Side::Original];

    pub fn name(self) -> &'static str {
        match self {
            Side::Ours => "ours",
            Side::Original => "original",
        }
    }

    pub fn named(name: &str) -> Side {
        match name {
            "ours" => Side::Ours,
            _ => Side::Original,
        }
    }
}

/// A work on a mesh. `entries` are those of the mesh that comes out; for normals, those of the mesh that goes in.
pub struct Work {
    pub entries: usize,
    ours: Box<dyn Fn(bool) -> Duration>,
    original: Box<dyn Fn(bool) -> Duration>,
}

impl Work {
    pub fn new(name: &str, size: u32) -> Work {
        match name {
            "refine simplices" => refine_simplices(block(Kind::Simplices, size), 2),
            "refine cubes" => refine_cubes(block(Kind::Cubes, size), 2),
            "lines anywhere" => refine_simplices(anywhere(size), 1),
            "lines in one chain" => refine_simplices(in_one_chain(size), 1),
            "lines in one bucket" => refine_simplices(in_one_bucket(size), 1),
            "lines deep in one bucket" => {
                refine_simplices(deep_in_one_bucket(size, verts(size)), 1)
            }
            "triangulate" => triangulate(block(Kind::Cubes, size)),
            "normals 3d" => normals_3d(sheet(size)),
            "normals 4d" => normals_4d(block(Kind::Simplices, size)),
            "read cubes" => read(block(Kind::Cubes, size)),
            "read simplices" => read(block(Kind::Simplices, size)),
            _ => panic!("no such work: {name}"),
        }
    }

    /// Makes what goes in, and where it is asked for does the work: how long that took.
    pub fn run(&self, side: Side, call: bool) -> Duration {
        match side {
            Side::Ours => (self.ours)(call),
            Side::Original => (self.original)(call),
        }
    }
}

/// Only the call is timed: what goes in is made before it, and what comes out is let go after it.
fn timed<I, O>(
    input: impl Fn() -> I + 'static,
    work: impl Fn(I) -> O + 'static,
) -> Box<dyn Fn(bool) -> Duration> {
    Box::new(move |call| {
        let input = black_box(input());
        if !call {
            return Duration::ZERO;
        }
        let began = Instant::now();
        let output = black_box(work(input));
        let took = began.elapsed();
        drop(output);
        took
    })
}

/// So many passes, time smoothed too.
macro_rules! refinement {
    ($name:ident, $area:literal, $volume:literal, $data:ident) => {
        fn $name(mesh: Mesh, passes: u8) -> Work {
            let geom = geometry::<$area, $volume, aljumeste::geom::$data>(&mesh);
            let mut left = geom.clone();
            left.subdivide(true, passes).expect("the mesh is accepted");
            Work {
                entries: entries(&left),
                ours: timed(
                    move || geom.clone(),
                    move |mut geom| {
                        geom.subdivide(true, passes).expect("the mesh is accepted");
                        geom
                    },
                ),
                original: timed(
                    move || mesh.geometry::<$area, $volume, $data>(),
                    move |mut geom| {
                        geom.subdivide(true, passes);
                        geom
                    },
                ),
            }
        }
    };
}

refinement!(refine_simplices, 3, 4, SimplexData);
refinement!(refine_cubes, 4, 8, CubeData);

fn triangulate(mesh: Mesh) -> Work {
    let geom = geometry::<4, 8, aljumeste::geom::CubeData>(&mesh);
    Work {
        entries: entries(&aljumeste::SimplicialGeometry::from(geom.clone())),
        ours: timed(move || geom.clone(), aljumeste::SimplicialGeometry::from),
        original: timed(
            move || mesh.geometry::<4, 8, CubeData>(),
            reference::geom::SimplicialGeometry::from,
        ),
    }
}

/// The normals of so many dimensions; the geometry goes in and comes out again, so that letting it go is not timed.
macro_rules! normals {
    ($name:ident, $compute:ident) => {
        fn $name(mesh: Mesh) -> Work {
            let geom = geometry::<3, 4, aljumeste::geom::SimplexData>(&mesh);
            Work {
                entries: entries(&geom),
                ours: timed(
                    move || geom.clone(),
                    |geom| (geom.$compute().expect("the mesh is accepted"), geom),
                ),
                original: timed(
                    move || mesh.geometry::<3, 4, SimplexData>(),
                    |geom| (geom.$compute(), geom),
                ),
            }
        }
    };
}

normals!(normals_3d, compute_normals_3d);
normals!(normals_4d, compute_normals_4d);

/// The original has no file: beside it stands the reference's own reader, up to the geometry.
fn read(mesh: Mesh) -> Work {
    let bytes = file::encode(&mesh);
    let again = bytes.clone();
    Work {
        entries: mesh.sizes().list().iter().sum(),
        ours: timed(
            move || bytes.clone(),
            |bytes| aljumeste::read(&bytes).expect("the file is accepted"),
        ),
        original: timed(
            move || again.clone(),
            move |bytes| {
                let mesh = file::decode(&bytes, &Sizes::all(LIMIT)).expect("the file is accepted");
                match mesh.kind {
                    Kind::Cubes => (Some(mesh.geometry::<4, 8, CubeData>()), None),
                    Kind::Simplices => (None, Some(mesh.geometry::<3, 4, SimplexData>())),
                }
            },
        ),
    }
}

fn entries<E: ElementData>(geom: &Geometry<E>) -> usize {
    let elements = geom.lines.len() + geom.areas.len() + geom.volumes.len();
    let strands: usize = geom.curves.values().map(|curve| curve.verts.len()).sum();
    geom.verts.len() + geom.points.len() + elements + strands
}

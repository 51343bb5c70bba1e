//! The geometries of the crate `aljumeste`, which are what a caller of homotopy-graphics links, against the original Rust in reference/: a
//! random mesh is refined, cut into simplices or given normals on both sides, and read from its file. Tag and k of midpoints are held against document 02's
//! U3. A geometry lends its own memory, so 10 is due at the limit alone.
use crate::{
    geometry::{geometry, mesh},
    refinement::{described, number, Compared},
    shrink::Shrink,
};
use aljumeste::{
    geom::{CubeData, ElementData, Geometry, SimplexData, Vert},
    read, CubicalGeometry, Figure, Refusal, SimplicialGeometry,
};
use reference::{
    file,
    memory::{
        judge_counts, judge_mesh, normals_3d, normals_4d, refine_within, triangulated, Normal,
    },
    mesh::{Kind, Lent, Mesh, Sizes, LIMIT},
    random::{self, Bounds, Rng},
};
use std::fmt;

/// A mesh, how deep it is refined and whether time is smoothed; and what becomes of its file before it is read.
#[derive(Clone)]
pub struct Figured {
    mesh: Mesh,
    depth: u8,
    smooth_time: bool,
    spoilt: Spoilt,
}

/// A file as it is; with one byte another, by its place modulo the length; cut there; or with a byte more.
#[derive(Copy, Clone, Debug)]
enum Spoilt {
    Not,
    At(usize, u8),
    Cut(usize),
    Longer,
}

/// So many meshes of a kind; stops at the first on which the two sides differ.
pub fn compare(kind: Kind, seed: u64, cases: u64) -> Compared {
    Compared::of(seed, cases, |rng, found| {
        let figured = draw(rng, kind);
        match differs(&figured) {
            Ok(classes) => classes.iter().for_each(|class| found.met(class, 1)),
            Err(_) => found.apart = Some(described(figured, |f| differs(f).err())),
        }
    })
}

/// One in five has something wrong that a geometry can have.
fn draw(rng: &mut Rng, kind: Kind) -> Figured {
    let bounds = Bounds {
        verts: rng.pick(&[4, 9, 20]),
        elements: rng.pick(&[1, 4, 9]),
        ..Bounds::default()
    };
    let mut mesh = random::mesh(rng, kind, &bounds);
    if rng.once_in(5) {
        hurt(rng, &mut mesh);
    }
    // A geometry has no word beside a curve's last vertex.
    for curve in &mut mesh.curves {
        if let Some(last) = curve.steps.last_mut() {
            *last = 0;
        }
    }
    // Now and then the version or the kind.
    let place = if rng.once_in(8) {
        rng.below(2)
    } else {
        rng.below(1 << 20)
    };
    let byte = if rng.once_in(2) {
        2
    } else {
        rng.below(256) as u8
    };
    Figured {
        mesh,
        depth: rng.below(4) as u8,
        smooth_time: rng.once_in(2),
        spoilt: rng.pick(&[
            Spoilt::Not,
            Spoilt::At(place, byte),
            Spoilt::At(place, byte),
            Spoilt::Cut(place),
            Spoilt::Longer,
        ]),
    }
}

/// A coordinate, a vertex number or a curve, where there is one.
fn hurt(rng: &mut Rng, mesh: &mut Mesh) {
    let (verts, way) = (mesh.verts.len(), rng.below(3));
    match way {
        0 if verts > 0 => {
            let wrong = [1024.001, -1e9, f32::INFINITY, f32::NAN].map(f32::to_bits);
            mesh.verts[rng.below(verts)].bits[rng.below(4)] = rng.pick(&wrong);
        }
        1 => {
            let lists = [&mut mesh.lines, &mut mesh.areas, &mut mesh.volumes];
            let corners = lists.into_iter().flatten().flat_map(|e| &mut e.corners);
            let strands = mesh.curves.iter_mut().flat_map(|c| &mut c.verts);
            let mut numbers: Vec<_> = corners.chain(&mut mesh.points).chain(strands).collect();
            let count = numbers.len();
            if count > 0 {
                *numbers[rng.below(count)] = verts as u32;
            }
        }
        _ => {
            if let Some(curve) = mesh.curves.first_mut() {
                (curve.verts, curve.steps) = (vec![], vec![]);
            }
        }
    }
}

/// Runs both sides: the classes of what they agree on, or in words where they first differ.
fn differs(figured: &Figured) -> Result<Vec<String>, String> {
    let mut classes = match figured.mesh.kind {
        Kind::Cubes => vec![
            refined::<4, 8, CubeData>(figured, CubicalGeometry::subdivide)?,
            cut(&figured.mesh)?,
        ],
        Kind::Simplices => vec![
            refined::<3, 4, SimplexData>(figured, SimplicialGeometry::subdivide)?,
            shaded(
                &figured.mesh,
                SimplicialGeometry::compute_normals_3d,
                normals_3d,
            )?,
            shaded(
                &figured.mesh,
                SimplicialGeometry::compute_normals_4d,
                normals_4d,
            )?,
        ],
    };
    let number = opened(&figured.file())?;
    classes.push(format!("read: {number}"));
    Ok(classes)
}

fn due(mesh: &Mesh) -> Option<u8> {
    judge_mesh(mesh).or_else(|| judge_counts(&mesh.sizes()))
}

/// Both sides have the same, or it is said which part differs.
fn same<T: PartialEq + fmt::Debug>(what: &str, ours: &T, theirs: &T) -> Result<(), String> {
    if ours == theirs {
        return Ok(());
    }
    Err(format!("{what}: {ours:?}, and by the reference {theirs:?}"))
}

fn told<T>(answer: &Result<T, Refusal>) -> u8 {
    answer.as_ref().err().map_or(0, |refusal| refusal.number())
}

fn refined<const A: usize, const V: usize, E>(
    figured: &Figured,
    subdivide: fn(&mut Geometry<E>, bool, u8) -> Result<(), Refusal>,
) -> Result<String, String>
where
    E: ElementData<Point = Vert, Line = [Vert; 2], Area = [Vert; A], Volume = [Vert; V]>,
{
    let Figured {
        mesh: before,
        depth,
        smooth_time,
        ..
    } = figured;
    let mut geom = geometry(before);
    let answer = subdivide(&mut geom, *smooth_time, *depth);
    let (number, left) = match due(before) {
        Some(number) => (number, before.clone()),
        None => {
            let lent = Lent {
                lists: Sizes::all(LIMIT),
                book: LIMIT,
            };
            let refined = refine_within(before, &lent, *depth, *smooth_time);
            (number(refined.ended), refined.mesh)
        }
    };
    same("refining is refused by", &told(&answer), &number)?;
    same("it leaves", &mesh(before.kind, &geom), &left)?;
    Ok(format!("refined: {number}"))
}

fn cut(cubes: &Mesh) -> Result<String, String> {
    let geom: CubicalGeometry = geometry(cubes);
    let answer = geom.triangulated();
    let number = due(cubes).unwrap_or(0);
    same("cutting is refused by", &told(&answer), &number)?;
    if let Ok(simplices) = answer {
        let cut = mesh(Kind::Simplices, &simplices);
        same("cutting gives", &cut, &triangulated(cubes))?;
        let moved = mesh(Kind::Simplices, &SimplicialGeometry::from(geom));
        same("as a conversion", &moved, &cut)?;
    }
    Ok(format!("cut: {number}"))
}

type Shaded<T> = Result<aljumeste::idx::IdxVec<Vert, T>, Refusal>;

fn shaded<const D: usize, T: Copy + Into<[f32; D]>>(
    simplices: &Mesh,
    ours: fn(&SimplicialGeometry) -> Shaded<T>,
    theirs: fn(&Mesh) -> Vec<Normal<D>>,
) -> Result<String, String> {
    let answer = ours(&geometry(simplices));
    let number = due(simplices).unwrap_or(0);
    same("normals are refused by", &told(&answer), &number)?;
    if let Ok(normals) = answer {
        let bits = |normal: &T| (*normal).into().map(f32::to_bits);
        let expected = theirs(simplices).into_iter().map(|normal| match normal {
            Normal::Direction(components) => components,
            Normal::Flat => [0; D],
        });
        let normals: Vec<_> = normals.values().map(bits).collect();
        same("normals", &normals, &expected.collect())?;
    }
    Ok(format!("normals in {D}D: {number}"))
}

/// Reads a file on both sides: the number on which they agree, or in words where they first differ.
pub fn opened(bytes: &[u8]) -> Result<u8, String> {
    let answer = read(bytes);
    let expected = file::decode(bytes, &Sizes::all(LIMIT));
    let number = expected.as_ref().err().copied().unwrap_or(0);
    same("reading is refused by", &told(&answer), &number)?;
    if let (Ok(figure), Ok(expected)) = (answer, expected) {
        let read = match &figure {
            Figure::Cubes(cubes) => mesh(Kind::Cubes, cubes),
            Figure::Simplices(simplices) => mesh(Kind::Simplices, simplices),
        };
        same("reading gives", &read, &expected)?;
    }
    Ok(number)
}

impl Figured {
    fn file(&self) -> Vec<u8> {
        let mut bytes = file::encode(&self.mesh);
        match self.spoilt {
            Spoilt::Not => (),
            Spoilt::At(place, byte) => {
                let length = bytes.len();
                bytes[place % length] = byte;
            }
            Spoilt::Cut(place) => bytes.truncate(place % bytes.len()),
            Spoilt::Longer => bytes.push(0),
        }
        bytes
    }
}

impl Shrink for Figured {
    fn smaller(&self) -> Vec<Figured> {
        let less = (self.depth > 0).then(|| Figured {
            depth: self.depth - 1,
            ..self.clone()
        });
        let meshes = self.mesh.smaller().into_iter().map(|mesh| Figured {
            mesh,
            ..self.clone()
        });
        less.into_iter().chain(meshes).collect()
    }
}

impl fmt::Display for Figured {
    fn fmt(&self, f: &mut fmt::Formatter) -> fmt::Result {
        writeln!(f, "{:?}", self.mesh)?;
        writeln!(
            f,
            "depth {}, smooth_time {}, the file {:?}",
            self.depth,
            u8::from(self.smooth_time),
            self.spoilt
        )
    }
}

#[cfg(test)]
mod tests {
    use super::*;

    /// One tetrahedron lost, and one more vertex: both are seen.
    #[test]
    fn what_is_lost_or_added_shows() {
        let spoilt: [fn(&mut SimplicialGeometry, bool, u8) -> Result<(), Refusal>; 2] = [
            |geom, smooth_time, depth| {
                let answer = geom.subdivide(smooth_time, depth);
                geom.volumes.pop();
                answer
            },
            |geom, smooth_time, depth| {
                let answer = geom.subdivide(smooth_time, depth);
                geom.verts.values().last().cloned().map(|v| geom.mk_vert(v));
                answer
            },
        ];
        let mut rng = Rng::new(1);
        let figured = loop {
            let figured = draw(&mut rng, Kind::Simplices);
            if due(&figured.mesh).is_none() && !figured.mesh.volumes.is_empty() {
                break figured;
            }
        };
        assert!(refined(&figured, SimplicialGeometry::subdivide).is_ok());
        for subdivide in spoilt {
            assert!(refined::<3, 4, SimplexData>(&figured, subdivide).is_err());
        }
    }

    /// Every answer that a geometry or a file can get is met, but for 9 and 10, which tests of the crate bring about.
    #[test]
    fn as_the_original() {
        let [door, file] = [&[0, 6, 7, 8][..], &[0, 1, 2, 3, 4, 5, 6, 7, 8]];
        for (kind, works) in [
            (
                Kind::Cubes,
                &[("refined", door), ("cut", door), ("read", file)][..],
            ),
            (
                Kind::Simplices,
                &[
                    ("refined", door),
                    ("normals in 3D", door),
                    ("normals in 4D", door),
                    ("read", file),
                ],
            ),
        ] {
            let wanted = works.iter().flat_map(|(work, numbers)| {
                let class = |number: &u8| (format!("{work}: {number}"), 5);
                numbers.iter().map(class).collect::<Vec<_>>()
            });
            compare(kind, 1, 3000).is_whole(3000, wanted);
        }
    }
}

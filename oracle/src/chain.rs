//! Document 02's U8, seen: the chain from cubes to refined tetrahedra. The ledger of the tetrahedra that cubes are cut into, read without triples that have
//! equal neighbours, is the cubes' ledger with each square replaced by two triangles, read the same way; cubes that close give tetrahedra that
//! close in that reading; and where every tetrahedron has four different corners, simplex passes keep the whole ledger closed.
//!
//! What is expected comes from the request's own sentence over section 5's ledgers (`ledger` and `model` in reference/) of the cubes handed in.
//! Of what the three calls leave, only the answers and the lent words are read.
use crate::{
    case::{any_words, Case},
    closed::{original, WAYS},
    derived::Entry,
    draw::sizes,
    exports,
    ledger::{called, lent, put_through, same_ledger, whole_passes},
    refinement::{described, Compared},
};
use reference::{
    ledger::{ledger, read, replaced, Ledger},
    memory::{judge_mesh, Bench},
    mesh::{Element, Kind, Mesh, Sizes},
    random::Rng,
};

/// So many random meshes of cubes; stops at the first that is not as U8 says.
pub fn compare(seed: u64, cases: u64) -> Compared {
    Compared::of(seed, cases, |rng, found| {
        let case = draw(rng);
        match check(&case) {
            Ok(seen) => count(found, &seen),
            Err(_) => found.apart = Some(described(case, wrong)),
        }
    })
}

/// What is wrong with an accepted mesh's chain.
fn wrong(case: &Case) -> Option<String> {
    match judge_mesh(&case.given.mesh) {
        None => check(case).err(),
        Some(_) => None,
    }
}

/// Cubes that close, are torn or either.
fn draw(rng: &mut Rng) -> Case {
    let way = rng.below(WAYS.len());
    let mesh = original(rng, Kind::Cubes, way);
    // A pass makes eight cubes of one.
    let most = if mesh.volumes.len() > 8 { 1 } else { 2 };
    let depth = rng.below(most + 1) as u8;
    lent(rng, mesh, depth)
}

/// What a chain has shown that is as U8 says.
struct Seen {
    /// Whole passes over cubes, and whether refusal 10 stopped them.
    passes: usize,
    stopped: bool,
    /// Whether there were cubes, and whether they close.
    cubes: bool,
    closed: bool,
    /// The entries of the tetrahedra's ledger that are not read.
    unread: usize,
    /// Simplex passes over tetrahedra that have four different corners, where the cubes close.
    after: Option<(usize, bool)>,
}

/// Walks the chain from a case on and holds U8 against it: what there was to see, or in words where it fails.
fn check(case: &Case) -> Result<Seen, String> {
    let (told, mut bench, left) = called(case)?;
    let passes = whole_passes(case, &told)?;
    let cut = cut(&mut bench, &left, case.given.fill)?;
    let handed = &case.given.mesh;
    let tetrahedra = ledger(&cut);
    let seen = hold(handed, passes, &tetrahedra)?;
    let closed = ledger(handed).is_empty();
    if closed && !seen.is_empty() {
        return Err("the cubes close, and their tetrahedra don't as they are read".into());
    }
    let after = if closed && cut.volumes.iter().all(different) {
        Some(refine_on(cut, case.given.fill)?)
    } else {
        None
    };
    Ok(Seen {
        passes,
        stopped: told.number == 10,
        cubes: !handed.volumes.is_empty(),
        closed,
        unread: tetrahedra.len() - seen.len(),
        after,
    })
}

/// The ledger of the tetrahedra as it is read, where it is the one that the cubes handed in give after so many passes.
fn hold(handed: &Mesh, passes: usize, tetrahedra: &Ledger) -> Result<Ledger, String> {
    let squares = put_through(handed, passes, ledger(handed));
    let seen = read(tetrahedra);
    same_ledger(&seen, &read(&replaced(&squares)))?;
    Ok(seen)
}

/// The simplices that the library cuts the cubes on a bench into, in lists that have any words before and some cells more than can be needed.
fn cut(bench: &mut Bench, left: &Sizes, fill: u64) -> Result<Mesh, String> {
    let mut rng = Rng::new(fill);
    let [triangles, tetrahedra] = [4 * 2 * left.areas, 5 * 6 * left.volumes];
    let mut lists = [triangles, tetrahedra].map(|most| {
        let words = most + rng.below(12);
        any_words(&mut rng, words)
    });
    let answered = exports::derive(Entry::Triangulation, bench, left, &mut lists);
    let Some(counts) = answered.sizes.filter(|_| answered.number == 0) else {
        return Err(format!("the cubes left are refused by {}", answered.number));
    };
    let [areas, volumes] = lists;
    let cut = Bench {
        areas,
        volumes,
        ..bench.clone()
    };
    let counts = sizes(&counts);
    if counts.exceeds(&cut.cells(Kind::Simplices)) {
        return Err(format!("{counts:?} are more than the lent cells"));
    }
    Ok(cut.mesh(Kind::Simplices, &counts))
}

fn different(volume: &Element) -> bool {
    let corners = &volume.corners;
    (1..corners.len()).all(|i| !corners[..i].contains(&corners[i]))
}

/// Refines tetrahedra that should close: the passes, and whether refusal 10 stopped them; or what is left open.
fn refine_on(mesh: Mesh, seed: u64) -> Result<(usize, bool), String> {
    let mut rng = Rng::new(seed ^ 1);
    let most = match mesh.volumes.len() {
        0..50 => 2,
        50..400 => 1,
        _ => 0,
    };
    let depth = rng.below(most + 1) as u8;
    let case = lent(&mut rng, mesh, depth);
    let (told, bench, left) = called(&case)?;
    let passes = whole_passes(&case, &told)?;
    let open = ledger(&bench.mesh(Kind::Simplices, &left));
    match open.first_key_value() {
        None => Ok((passes, told.number == 10)),
        Some((face, n)) => Err(format!(
            "after {passes} simplex passes the entry of {face:?} is {n}"
        )),
    }
}

fn count(found: &mut Compared, seen: &Seen) {
    let is = match (seen.cubes, seen.closed) {
        (false, _) => "no cubes",
        (_, true) => "closed",
        (_, false) => "torn",
    };
    found.met(format!("{is}, passes {}", seen.passes), 1);
    if seen.stopped {
        found.met(format!("{is}, stopped by 10"), 1);
    }
    if seen.closed && seen.unread > 0 {
        found.met("closed only as they are read", 1);
    }
    if let Some((passes, stopped)) = seen.after.filter(|_| seen.cubes) {
        found.met(format!("closed, then simplex passes {passes}"), 1);
        found.met("closed, then stopped by 10", stopped.into());
    }
    found.met("entries that are not read", seen.unread as u64);
}

#[cfg(test)]
mod tests {
    use super::*;
    use crate::{
        closed::{boundary, vertex},
        draw::needs,
    };

    /// All ways in which so many corners coincide: each is the next new vertex or an old one.
    fn coincidences(corners: usize) -> Vec<Vec<u32>> {
        let mut ways = vec![vec![]];
        for _ in 0..corners {
            ways = ways
                .into_iter()
                .flat_map(|way: Vec<u32>| {
                    let new = way.iter().max().map_or(0, |most| most + 1);
                    (0..=new).map(move |next| [&way[..], &[next]].concat())
                })
                .collect();
        }
        ways
    }

    /// One cube, lent what so many passes need.
    fn one(corners: Vec<u32>, parity: u32, depth: u8) -> Case {
        let count = corners.iter().max().map_or(0, |most| *most as usize + 1);
        let mesh = Mesh {
            verts: (0..count).map(vertex).collect(),
            volumes: vec![Element { corners, parity }],
            ..Mesh::empty(Kind::Cubes)
        };
        let cells = needs(&mesh, depth, false)[usize::from(depth)];
        Case::new(mesh, &sizes(&cells), cells[7], depth, 0)
    }

    /// The number of ways is the eighth Bell number (OEIS A000110).
    #[test]
    fn every_way_in_which_a_cube_s_corners_coincide() {
        let ways = coincidences(8);
        assert_eq!(ways.len(), 4_140);
        let mut unread = 0;
        for way in ways {
            for (parity, depth) in [(0, 0), (1, 0), (0, 1), (1, 1), (0, 2), (1, 2)] {
                let case = one(way.clone(), parity, depth);
                match check(&case) {
                    Ok(seen) => {
                        assert_eq!(seen.passes, depth.into(), "{case}");
                        unread += usize::from(seen.unread > 0);
                    }
                    Err(why) => panic!("{case}{why}"),
                }
            }
        }
        assert!(unread > 1_000, "{unread}");
    }

    const CASES: u64 = 3_000;

    #[test]
    fn the_chain_keeps_what_closes_closed() {
        let found = compare(1, CASES);
        let passes = |p: usize| ["closed", "torn"].map(|is| (format!("{is}, passes {p}"), 100));
        let after = (0..3).map(|p| (format!("closed, then simplex passes {p}"), 20));
        let others = [
            ("closed, stopped by 10", 50),
            ("torn, stopped by 10", 50),
            ("closed, then stopped by 10", 20),
            ("closed only as they are read", 20),
            ("entries that are not read", 1_000),
        ];
        let others = others.map(|(class, least)| (class.to_string(), least));
        let wanted = (0..3).flat_map(passes).chain(after);
        found.is_whole(CASES, wanted.chain(others));
    }

    /// The eight cubes around a 4D cube close, and with vertices 0, 1 and 3 made one they do too; but then their tetrahedra keep two entries, which the
    /// readings of document 02 give, and which are not read.
    #[test]
    fn closed_only_as_it_is_read() {
        let mut volumes = boundary(Kind::Cubes);
        for corner in volumes.iter_mut().flat_map(|v| &mut v.corners) {
            if [1, 3].contains(corner) {
                *corner = 0;
            }
        }
        let mesh = Mesh {
            verts: (0..16).map(vertex).collect(),
            volumes,
            ..Mesh::empty(Kind::Cubes)
        };
        assert!(ledger(&mesh).is_empty());
        let counts = mesh.sizes();
        let mut bench = Bench::lent(Kind::Cubes, &counts);
        bench.put(&mesh);
        let left = ledger(&cut(&mut bench, &counts, 0).unwrap());
        let kept = [(vec![0, 0, 11], 1), (vec![0, 0, 7], -1)];
        assert_eq!(left, kept.into_iter().collect());
        assert!(read(&left).is_empty());
    }

    /// What the library cuts the cubes of a case into.
    fn cut_of(case: &Case) -> Mesh {
        let (_, mut bench, left) = called(case).unwrap();
        cut(&mut bench, &left, 0).unwrap()
    }

    /// In a cube of eight different corners: a parity flipped, a tetrahedron dropped, corners moved round by one, are each found.
    #[test]
    fn a_wrong_tetrahedron_is_noticed() {
        let spoils: [fn(&mut Vec<Element>, usize); 3] = [
            |volumes, at| volumes[at].parity ^= 1,
            |volumes, at| drop(volumes.remove(at)),
            |volumes, at| volumes[at].corners.rotate_left(1),
        ];
        let case = one((0..8).collect(), 0, 0);
        let whole = cut_of(&case);
        for spoil in spoils {
            for at in 0..6 {
                let mut wrong = whole.clone();
                spoil(&mut wrong.volumes, at);
                assert!(hold(&case.given.mesh, 0, &ledger(&wrong)).is_err());
            }
        }
    }

    /// To read [x,y,y] too is found: where corners coincide, the two ledgers differ there.
    #[test]
    fn a_wrong_reading_is_noticed() {
        let first_pair_alone = |triangles: Ledger| -> Ledger {
            let entries = triangles.into_iter();
            entries.filter(|(t, _)| t[0] != t[1]).collect()
        };
        let cases = coincidences(8).into_iter().map(|way| one(way, 0, 0));
        let differ = cases.filter(|case| {
            let squares = replaced(&ledger(&case.given.mesh));
            first_pair_alone(ledger(&cut_of(case))) != first_pair_alone(squares)
        });
        assert!(differ.count() > 100);
    }
}

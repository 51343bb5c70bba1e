//! Demand 3, seen: the ledger of a mesh that came out of a refinement is the ledger of the mesh handed in, put through the refinement of
//! faces as often as the answer says that there were passes; it closes exactly where that one does; and triangles and tetrahedra give
//! back those that they came from.
//!
//! What is expected comes from document 01's section 5 over the book that sections 2 to 4 make (`ledger` and `model` in reference/),
//! and from the mesh handed in. Of what refined, only the answer and the lent words are read.
use crate::{
    case::Case,
    closed::{original, WAYS},
    desk::{Desk, Told},
    draw::{needs, sizes, Cells},
    exports,
    refinement::{described, Compared},
};
use reference::{
    ledger::{ledger, refined, Ledger},
    memory::{judge_mesh, Bench},
    mesh::{Element, Kind, Mesh, Sizes},
    model::Model,
    random::Rng,
};

/// So many meshes of a kind; stops at the first that is not as demand 3 says.
pub fn compare(kind: Kind, seed: u64, cases: u64) -> Compared {
    Compared::of(seed, cases, |rng, found| {
        let way = rng.below(WAYS.len());
        let case = draw(rng, kind, way);
        match check(&case) {
            Ok(seen) => count(found, way, &seen),
            Err(_) => found.apart = Some(described(case, wrong)),
        }
    })
}

/// What is wrong with an accepted mesh's ledger.
fn wrong(case: &Case) -> Option<String> {
    match judge_mesh(&case.given.mesh) {
        None => check(case).err(),
        Some(_) => None,
    }
}

fn draw(rng: &mut Rng, kind: Kind, way: usize) -> Case {
    let mesh = original(rng, kind, way);
    // A pass makes eight volumes of one.
    let most = if mesh.volumes.len() > 16 { 2 } else { 3 };
    let depth = rng.pick(&[0, 1, 1, 2, 2, 2, 3, 3]).min(most);
    lent(rng, mesh, depth)
}

/// An accepted mesh, lent more than is needed, what is needed, or what only fewer passes need.
pub fn lent(rng: &mut Rng, mesh: Mesh, depth: u8) -> Case {
    let smooth_time = rng.below(2) as u8;
    let cells = lending(rng, &needs(&mesh, depth, smooth_time == 1));
    let mut case = Case::new(mesh, &sizes(&cells), cells[7], depth, smooth_time);
    case.given.fill = rng.draw();
    case
}

/// From what so many passes need, none first.
fn lending(rng: &mut Rng, needs: &[Cells]) -> Cells {
    let all = needs[needs.len() - 1];
    let fewer = rng.pick(needs);
    match rng.below(4) {
        0 => all.map(|n| n + rng.below(20)),
        1 => all,
        2 => fewer,
        _ => {
            let (list, mut cells) = (rng.below(all.len()), all);
            cells[list] = fewer[list];
            cells
        }
    }
}

/// What a mesh has shown that is as demand 3 says.
pub struct Seen {
    number: u8,
    passes: usize,
    pub before: Ledger,
    pub after: Ledger,
    /// How many volumes were handed in.
    pub volumes: usize,
    left: Mesh,
}

/// Refines a case and holds demand 3 against it: what there was to see, or in words where it fails.
pub fn check(case: &Case) -> Result<Seen, String> {
    let (told, left) = run(case)?;
    let passes = whole_passes(case, &told)?;
    let (before, after) = hold(&case.given.mesh, passes, &left)?;
    Ok(Seen {
        number: told.number,
        passes,
        before,
        after,
        volumes: case.given.mesh.volumes.len(),
        left,
    })
}

/// What a caller is told, and the mesh that is left for it in the lent words.
fn run(case: &Case) -> Result<(Told, Mesh), String> {
    let (told, bench, sizes) = called(case)?;
    Ok((told, bench.mesh(case.given.mesh.kind, &sizes)))
}

/// "n is the depth, or, where 10 stops the work, the number of passes before the one that it refuses": the answer's own count.
/// Whether 10 was due is not asked here: `refinement` holds every answer against the original's.
pub fn whole_passes(case: &Case, told: &Told) -> Result<usize, String> {
    let (passes, depth) = (told.answer[0], usize::from(case.depth));
    match told.number {
        0 if passes == depth => Ok(passes),
        10 if passes < depth => Ok(passes),
        number => Err(format!("answer {number} after {passes} passes of {depth}")),
    }
}

/// What a caller is told, the bench that the last whole pass wrote, "the first for an even count, the second for an odd one", and the sizes of the mesh there; but
/// for its curves, which no ledger asks and whose lengths need not add up in wrong words.
pub fn called(case: &Case) -> Result<(Told, Bench, Sizes), String> {
    let mut desk = case.desk();
    let kind = case.given.mesh.kind;
    let counts = &case.given.counts;
    let told = exports::subdivide(kind, &mut desk, counts, case.depth, case.smooth_time);
    let [passes, ..] = told.answer;
    let Desk { first, second, .. } = desk;
    let bench = if passes % 2 == 0 { first } else { second };
    // The passes stand before the sizes; as cells, what is no list's stands behind them.
    let mut cells: Cells = told.answer;
    cells.rotate_left(1);
    let sizes = sizes(&cells);
    if sizes.exceeds(&bench.cells(kind)) {
        return Err(format!("{sizes:?} are more than the lent cells"));
    }
    let asked = Sizes {
        curves: 0,
        curve_verts: 0,
        ..sizes
    };
    Ok((told, bench, asked))
}

/// Demand 3 for a mesh handed in and the mesh left of it after so many passes: both ledgers, or in words where it fails.
fn hold(original: &Mesh, passes: usize, left: &Mesh) -> Result<(Ledger, Ledger), String> {
    let (before, after) = (ledger(original), ledger(left));
    same_ledger(&after, &put_through(original, passes, before.clone()))?;
    if before.is_empty() != after.is_empty() {
        return Err("one of the mesh handed in and the mesh left is closed, the other torn".into());
    }
    if original.kind == Kind::Simplices {
        recovers("areas", &original.areas, &left.areas, passes)?;
        recovers("volumes", &original.volumes, &left.volumes, passes)?;
    }
    Ok((before, after))
}

/// The refinement of faces, so many times, "the k-th time over the midpoints after pass k, as sections 2 to 4 make the book from the mesh
/// handed in".
pub fn put_through(original: &Mesh, passes: usize, mut faces: Ledger) -> Ledger {
    let mut model = Model::new(original);
    for _ in 0..passes {
        model.lists();
        faces = refined(&faces, &model);
    }
    faces
}

/// Entry for entry; an entry that a ledger doesn't have is 0.
pub fn same_ledger(ours: &Ledger, theirs: &Ledger) -> Result<(), String> {
    let entry = |ledger: &Ledger, face: &Vec<u32>| ledger.get(face).copied().unwrap_or(0);
    let faces = ours.keys().chain(theirs.keys());
    for face in faces {
        let [is, expected] = [ours, theirs].map(|ledger| entry(ledger, face));
        if is != expected {
            return Err(format!(
                "the entry of {face:?} is {is}, and should be {expected}"
            ));
        }
    }
    Ok(())
}

/// After all passes are undone, the list is the one handed in: vertex numbers, parities, order.
fn recovers(
    name: &str,
    before: &[Element],
    after: &[Element],
    passes: usize,
) -> Result<(), String> {
    let mut list = after.to_vec();
    for _ in 0..passes {
        list = undone(&list).ok_or_else(|| format!("the {name} left are no whole pieces"))?;
    }
    if list == before {
        return Ok(());
    }
    Err(format!("the {name} left give back {list:?}"))
}

/// A pass undone, where the pieces of every element are there: its corner i is at place i of piece i, its parity that of piece 0.
fn undone(list: &[Element]) -> Option<Vec<Element>> {
    let corners = list.first().map_or(1, |e| e.corners.len());
    // A triangle becomes four, a tetrahedron eight.
    let families = list.chunks_exact(1 << (corners - 1));
    families.remainder().is_empty().then_some(())?;
    let parent = |pieces: &[Element]| Element {
        corners: (0..corners).map(|i| pieces[i].corners[i]).collect(),
        parity: pieces[0].parity,
    };
    Some(families.map(parent).collect())
}

fn count(found: &mut Compared, way: usize, seen: &Seen) {
    let mut add = |name: String, count: usize| found.met(name, count as u64);
    let passes = seen.passes;
    add(format!("way: {}", WAYS[way].0), 1);
    add(format!("answer {}, passes {passes}", seen.number), 1);
    match (seen.volumes, seen.before.is_empty()) {
        (0, _) => add("no volumes".into(), 1),
        (_, true) => add(format!("closed, passes {passes}"), 1),
        (_, false) => add(format!("torn, passes {passes}"), 1),
    }
    let large = seen.after.values().filter(|n| n.abs() > 1).count();
    add("entries other than 0".into(), seen.after.len());
    add("entries beyond 1 and -1".into(), large);
    add("areas left".into(), seen.left.areas.len());
    add("volumes left".into(), seen.left.volumes.len());
    // Eight pieces of each, if all are kept.
    let pieces = seen.volumes << (3 * passes);
    let dropped = pieces.saturating_sub(seen.left.volumes.len());
    add("pieces dropped".into(), dropped);
}

#[cfg(test)]
mod tests {
    use super::*;
    use crate::block::block;
    use reference::memory::subdivided;

    const CASES: u64 = 3_000;

    /// The classes that no run may miss, and how often each is met at least.
    fn wanted() -> Vec<(String, u64)> {
        let ways = WAYS.iter().map(|(way, _)| (format!("way: {way}"), 200));
        let passes = |p: usize| ["closed", "torn"].map(|is| (format!("{is}, passes {p}"), 100));
        let stopped = (0..3).map(|p| (format!("answer 10, passes {p}"), 20));
        let finished = (0..4).map(|p| (format!("answer 0, passes {p}"), 100));
        let entries = [
            ("entries other than 0".into(), 100_000),
            ("entries beyond 1 and -1".into(), 1_000),
            ("areas left".into(), 10_000),
            ("volumes left".into(), 100_000),
        ];
        ways.chain((0..4).flat_map(passes))
            .chain(stopped)
            .chain(finished)
            .chain(entries)
            .collect()
    }

    fn demand_3_is_seen(kind: Kind) {
        let found = compare(kind, 1, CASES);
        found.is_whole(CASES, wanted().into_iter());
        let dropped = found.classes["pieces dropped"];
        assert_eq!(dropped > 0, kind == Kind::Cubes, "{dropped} dropped");
    }

    #[test]
    fn ledgers_of_simplices_are_refined_ledgers() {
        demand_3_is_seen(Kind::Simplices);
    }

    #[test]
    fn ledgers_of_cubes_are_refined_ledgers() {
        demand_3_is_seen(Kind::Cubes);
    }

    /// A case made in one of the ways, and the mesh left of it after so many passes.
    struct Run {
        way: usize,
        case: Case,
        passes: usize,
        left: Mesh,
    }

    /// So many of every way.
    fn runs(kind: Kind, each: u64) -> Vec<Run> {
        let mut rng = Rng::new(2);
        let ways = (0..each).flat_map(|_| 0..WAYS.len());
        let one = |way: usize| {
            let case = draw(&mut rng, kind, way);
            let (told, left) = run(&case).unwrap();
            let passes = told.answer[0];
            Run {
                way,
                case,
                passes,
                left,
            }
        };
        ways.map(one).collect()
    }

    /// A ledger is empty where the way a mesh is made closes it, and isn't where that way tears it.
    #[test]
    fn closed_and_torn_by_the_way_they_are_made() {
        for kind in [Kind::Simplices, Kind::Cubes] {
            for run in runs(kind, 50) {
                let (name, closed) = WAYS[run.way];
                for mesh in [&run.case.given.mesh, &run.left] {
                    let empty = ledger(mesh).is_empty();
                    assert_eq!(empty, closed.unwrap_or(empty), "{kind:?}, {name}");
                }
            }
        }
    }

    /// The place of a volume that has faces which don't cancel among themselves.
    fn solid(mesh: &Mesh) -> Option<usize> {
        let alone = |volume: &Element| Mesh {
            volumes: vec![volume.clone()],
            ..Mesh::empty(mesh.kind)
        };
        mesh.volumes
            .iter()
            .position(|volume| !ledger(&alone(volume)).is_empty())
    }

    /// In every mesh left that has such a volume: its parity flipped, the volume dropped, its corners moved round by one, are each found
    /// by the ledger alone.
    #[test]
    fn a_wrong_volume_is_noticed() {
        let spoils: [fn(&mut Mesh, usize); 3] = [
            |mesh, at| mesh.volumes[at].parity ^= 1,
            |mesh, at| drop(mesh.volumes.remove(at)),
            |mesh, at| mesh.volumes[at].corners.rotate_left(1),
        ];
        for kind in [Kind::Simplices, Kind::Cubes] {
            let mut noticed = 0;
            for run in runs(kind, 20) {
                let Some(at) = solid(&run.left) else { continue };
                let handed = &run.case.given.mesh;
                let expected = put_through(handed, run.passes, ledger(handed));
                for (i, spoil) in spoils.into_iter().enumerate() {
                    let mut wrong = run.left.clone();
                    spoil(&mut wrong, at);
                    let found = same_ledger(&ledger(&wrong), &expected);
                    assert!(found.is_err(), "{i} goes unnoticed in\n{}", run.case);
                    noticed += 1;
                }
            }
            assert!(noticed > 300, "{noticed}");
        }
    }

    /// The mesh handed in, copied out under the answer's pass count, is found: by the ledger where it is torn; a closed one is forgiven
    /// by the ledger, and of simplices found by what it gives back.
    #[test]
    fn a_mesh_copied_out_unrefined_is_noticed() {
        for kind in [Kind::Simplices, Kind::Cubes] {
            let (mut torn, mut closed) = (0, 0);
            for Run { case, passes, .. } in runs(kind, 20) {
                let mesh = &case.given.mesh;
                if passes == 0 || mesh.volumes.is_empty() {
                    continue;
                }
                let noticed = hold(mesh, passes, mesh).is_err();
                if ledger(mesh).is_empty() {
                    assert_eq!(noticed, kind == Kind::Simplices, "{case}");
                    closed += 1;
                } else {
                    assert!(noticed, "{case}");
                    torn += 1;
                }
            }
            assert!(torn > 30 && closed > 30, "{torn} torn, {closed} closed");
        }
    }

    /// Five different tetrahedra whose pieces are moved round by one family: the ledger forgives it, what they give back doesn't.
    #[test]
    fn a_wrong_order_of_volumes_is_noticed() {
        let mut noticed = 0;
        for mut run in runs(Kind::Simplices, 20) {
            if run.passes == 0 || WAYS[run.way].0 != "the boundary in four dimensions" {
                continue;
            }
            let ordered = ledger(&run.left);
            run.left.volumes.rotate_left(8);
            assert_eq!(ledger(&run.left), ordered);
            assert!(hold(&run.case.given.mesh, run.passes, &run.left).is_err());
            noticed += 1;
        }
        assert!(noticed > 5, "{noticed}");
    }

    /// Document 01's cube with corners 0 = 3 and 2 = 7, which meets an old pair again at depth 2: a fresh book for the second pass is
    /// found.
    #[test]
    fn a_fresh_book_is_noticed() {
        let mut mesh = block(Kind::Cubes, 1);
        mesh.volumes[0].corners = vec![0, 1, 2, 0, 3, 4, 5, 2];
        let again = |mesh: &Mesh| subdivided(mesh, 1, false);
        assert!(hold(&mesh, 2, &subdivided(&mesh, 2, false)).is_ok());
        assert!(hold(&mesh, 1, &again(&mesh)).is_ok());
        assert!(hold(&mesh, 2, &again(&again(&mesh))).is_err());
    }

    /// A wrong order, a wrong parity and a piece too few of the areas left are found, though no ledger asks for areas.
    #[test]
    fn a_wrong_area_is_noticed() {
        let spoils: [fn(&mut Vec<Element>); 3] = [
            |areas| areas.rotate_left(4),
            |areas| areas[0].parity ^= 1,
            |areas| drop(areas.pop()),
        ];
        let triangle = |corners: [u32; 3], parity: u32| Element {
            corners: corners.to_vec(),
            parity,
        };
        let before = [triangle([0, 1, 2], 0), triangle([2, 1, 3], 1)];
        // Section 3's pieces of the two, over the midpoints 4 to 9 in the order in which they are made.
        let after = vec![
            triangle([0, 4, 5], 0),
            triangle([4, 1, 6], 0),
            triangle([5, 6, 2], 0),
            triangle([4, 5, 6], 1),
            triangle([2, 7, 8], 1),
            triangle([7, 1, 9], 1),
            triangle([8, 9, 3], 1),
            triangle([7, 8, 9], 0),
        ];
        assert_eq!(recovers("areas", &before, &after, 1), Ok(()));
        for spoil in spoils {
            let mut wrong = after.clone();
            spoil(&mut wrong);
            assert!(recovers("areas", &before, &wrong, 1).is_err());
        }
    }
}

//! What can be wrong with what a caller hands in.
use crate::case::{list_of, row_words, Given, Patch};
use reference::{
    mesh::{Curve, Sizes, LIMIT},
    random::Rng,
};

/// Every thing that can be wrong, in words.
pub const DAMAGES: [&str; 17] = [
    "a count beyond the cells",
    "a huge count",
    "unequal benches",
    "sums of another length",
    "tallies of another length",
    "smooth_time above 1",
    "flags above 15",
    "a parity above 1",
    "a step's parity above 1",
    "a coordinate beyond 1,024",
    "an infinite coordinate",
    "a coordinate that is no number",
    "a number beyond the count",
    "a curve without vertices",
    "curve lengths that don't add up",
    "curve lengths that add up anew",
    "a count below the entries",
];

/// The number of a curve without vertices among them.
pub const EMPTY_CURVE: usize = 13;

/// Does one of them to a mesh that has a place for it. Benches, sums, tallies and smooth_time are no part of what is given here.
pub fn hurt(rng: &mut Rng, given: &mut Given, which: usize) -> Option<()> {
    match which {
        0 => beyond_cells(rng, given),
        1 => {
            let list = rng.below(7);
            let huge = rng.pick(&[usize::MAX, 1 << 63, 1 << 32, u32::MAX as usize, LIMIT + 1]);
            *count(&mut given.counts, list) = huge;
        }
        6 => {
            let vertex = one_of(rng, given.mesh.verts.len())?;
            let flags = rng.pick(&[16, 17, 31, 240, 255, 256, 1 << 31, u32::MAX]);
            patch(given, 1, 3 * vertex, flags);
        }
        7 => parity(rng, given)?,
        8 => step(rng, given)?,
        9 => coordinate(
            rng,
            given,
            &[0x4480_0001, 0xC480_0001, 0x4500_0000, 0x7F7F_FFFF],
        )?,
        10 => coordinate(rng, given, &[0x7F80_0000, 0xFF80_0000])?,
        11 => coordinate(
            rng,
            given,
            &[0x7FC0_0000, 0x7F80_0001, 0xFFFF_FFFF, 0xFF80_0001],
        )?,
        12 => number(rng, given)?,
        EMPTY_CURVE => empty_curve(rng, given),
        14 => wrong_lengths(rng, given)?,
        15 => moved_lengths(rng, given)?,
        16 => {
            let list = rng.below(7);
            let place = count(&mut given.counts, list);
            *place = place.checked_sub(1)?;
        }
        _ => return None,
    }
    Some(())
}

fn one_of(rng: &mut Rng, length: usize) -> Option<usize> {
    (length > 0).then(|| rng.below(length))
}

fn patch(given: &mut Given, slice: usize, at: usize, word: u32) {
    given.patches.push(Patch { slice, at, word });
}

fn count(counts: &mut Sizes, list: usize) -> &mut usize {
    match list {
        0 => &mut counts.verts,
        1 => &mut counts.points,
        2 => &mut counts.lines,
        3 => &mut counts.areas,
        4 => &mut counts.volumes,
        5 => &mut counts.curves,
        _ => &mut counts.curve_verts,
    }
}

/// A count of one more than the lent cells.
fn beyond_cells(rng: &mut Rng, given: &mut Given) {
    let slice = rng.below(8);
    let cells = given.words[slice] / row_words(given.mesh.kind)[slice];
    *count(&mut given.counts, list_of(slice)) = cells + 1;
}

/// One cell more or less, none, or one word more.
pub fn other_length(rng: &mut Rng, words: &mut usize, row: usize) {
    *words = match rng.below(4) {
        0 => *words + row,
        1 => words.saturating_sub(row),
        2 => 0,
        _ => *words + 1,
    };
}

fn parity(rng: &mut Rng, given: &mut Given) -> Option<()> {
    let list = rng.below(3);
    let entries = [&given.mesh.lines, &given.mesh.areas, &given.mesh.volumes][list].len();
    let at = one_of(rng, entries)?;
    let row = row_words(given.mesh.kind)[3 + list];
    let word = rng.pick(&[2, 3, 128, 256, u32::MAX]);
    patch(given, 3 + list, row * at + row - 1, word);
    Some(())
}

/// A step of a curve, and not the word beside its last vertex.
fn step(rng: &mut Rng, given: &mut Given) -> Option<()> {
    let curve = one_of(rng, given.mesh.curves.len())?;
    let steps = given.mesh.curves[curve].verts.len().saturating_sub(1);
    let at = start(given, curve) + one_of(rng, steps)?;
    let word = rng.pick(&[2, 3, 255, u32::MAX]);
    patch(given, 7, 2 * at + 1, word);
    Some(())
}

/// Where a curve's vertices begin.
fn start(given: &Given, curve: usize) -> usize {
    given.mesh.curves[..curve]
        .iter()
        .map(|c| c.verts.len())
        .sum()
}

fn coordinate(rng: &mut Rng, given: &mut Given, bits: &[u32]) -> Option<()> {
    let vertex = one_of(rng, given.mesh.verts.len())?;
    let (axis, word) = (rng.below(4), rng.pick(bits));
    patch(given, 0, 4 * vertex + axis, word);
    Some(())
}

/// A vertex number that is none, in any list.
fn number(rng: &mut Rng, given: &mut Given) -> Option<()> {
    let count = given.mesh.verts.len() as u32;
    let word = rng.pick(&[count, count + 1, 1 << 31, u32::MAX]);
    let slice = rng.pick(&[2, 3, 4, 5, 7]);
    let row = row_words(given.mesh.kind)[slice];
    let at = one_of(rng, given.mesh.sizes().list()[list_of(slice)])?;
    // Beside the vertex numbers stands a parity, but for a point.
    let corner = rng.below((row - 1).max(1));
    patch(given, slice, row * at + corner, word);
    Some(())
}

fn empty_curve(rng: &mut Rng, given: &mut Given) {
    let at = rng.below(given.mesh.curves.len() + 1);
    let curve = Curve {
        tag: rng.draw() as u32,
        verts: vec![],
        steps: vec![],
    };
    given.mesh.curves.insert(at, curve);
    given.counts.curves = given.counts.curves.saturating_add(1);
    given.words[6] += 2;
}

fn wrong_lengths(rng: &mut Rng, given: &mut Given) -> Option<()> {
    let curve = one_of(rng, given.mesh.curves.len())?;
    let length = given.mesh.curves[curve].verts.len() as u32;
    let word = rng.pick(&[
        length + 1,
        length.saturating_sub(1),
        0,
        u32::MAX,
        u32::MAX - 1,
    ]);
    patch(given, 6, 2 * curve + 1, word);
    Some(())
}

/// One vertex goes from a curve to the next: the sum stays, so that this is a mesh again, unless a curve is left without any.
fn moved_lengths(rng: &mut Rng, given: &mut Given) -> Option<()> {
    let curve = one_of(rng, given.mesh.curves.len().saturating_sub(1))?;
    let [here, next] = [0, 1].map(|i| given.mesh.curves[curve + i].verts.len() as u32);
    patch(given, 6, 2 * curve + 1, here.checked_sub(1)?);
    patch(given, 6, 2 * curve + 3, next + 1);
    Some(())
}

//! Meshes of lines that are hard on the midpoint book, and such as are not. A book has as many buckets as lent cells, and a fixed rule says into
//! which a pair falls (crates/index): who knows it can choose lines that all fall into one. A chain behind the bucket would then be walked from
//! end to end, and a tree is as deep as the bits of the pairs make it.
//!
//! The crate lends a book as many cells as a pass can make midpoints, so that there are as many buckets as lines.
use reference::{
    mesh::{Element, Kind, Mesh, Vertex},
    random::Rng,
};

/// So many vertices for a line: the more there are, the more pairs fall into a bucket, and the deeper the tree can be made; but then the
/// vertices are most of the work. 300,000 lines with theirs and their midpoints are just within the limit.
pub fn verts(lines: u32) -> u32 {
    lines * 12 / 5
}

/// Lines that the others are measured against: no vertex is the first end of two, nor the second.
pub fn anywhere(lines: u32) -> Mesh {
    let [mut firsts, mut seconds] = [0, 1].map(|_| (0..verts(lines)).collect::<Vec<u32>>());
    shuffle(&mut firsts);
    firsts.truncate(lines as usize);
    shuffle(&mut seconds);
    seconds.reverse();
    let pairs = firsts.into_iter().zip(seconds).map(|(a, b)| [a, b]);
    mesh(verts(lines), pairs.collect())
}

/// Lines whose pairs all fall into bucket 0.
pub fn in_one_bucket(lines: u32) -> Mesh {
    let mut seconds: Vec<u32> = (0..verts(lines)).collect();
    shuffle(&mut seconds);
    mesh(
        verts(lines),
        pairs_of_bucket_0(lines, verts(lines), seconds),
    )
}

/// Lines whose pairs all fall into bucket 0, where its tree is the deepest.
pub fn deep_in_one_bucket(lines: u32, verts: u32) -> Mesh {
    mesh(verts, deep_pairs(lines, verts))
}

/// Pairs whose lowest bits, which lead from the root of a tree, are the same for the longest.
fn deep_pairs(lines: u32, verts: u32) -> Vec<[u32; 2]> {
    let mut seconds: Vec<u32> = (0..verts).collect();
    seconds.sort_unstable_by_key(|b| b.reverse_bits());
    pairs_of_bucket_0(lines, verts, seconds)
}

/// As many pairs as lines that fall into bucket 0: each second end with the first ends that make a number of that bucket.
fn pairs_of_bucket_0(lines: u32, verts: u32, seconds: Vec<u32>) -> Vec<[u32; 2]> {
    let most = (FIRST + SECOND) * verts;
    let numbers: Vec<u32> = (0..most).filter(|x| circled(lines, *x) == 0).collect();
    let pairs_with = |b: u32| {
        let rests = numbers
            .iter()
            .filter_map(move |x| x.checked_sub(SECOND * b));
        let firsts = rests
            .filter(|rest| rest % FIRST == 0)
            .map(|rest| rest / FIRST);
        firsts.filter(move |a| *a < verts).map(move |a| [a, b])
    };
    some(lines, seconds.into_iter().flat_map(pairs_with))
}

/// A pair's number is a·FIRST + b·SECOND, of which 32 bits count.
const FIRST: u32 = 25;
const SECOND: u32 = 9;

/// The bucket of a number: the buckets go round in a circle of 2^32, and a step of a number makes half a bucket or more, less than one.
fn circled(buckets: u32, number: u32) -> u64 {
    let turned = number << buckets.leading_zeros();
    u64::from(turned) * u64::from(buckets) >> 32
}

/// Lines whose pairs all fell into bucket 0 when the book had a chain behind each bucket, and mixed a pair to (a·2654435761 + b)·2246822507, of
/// which 32 bits counted: that times the buckets, divided by 2^32, was the bucket. For a second end b this is a's own product, turned by b's; so
/// where these products stand in order, the first ends that b has follow each other.
pub fn in_one_chain(lines: u32) -> Mesh {
    let verts = verts(lines);
    let product = |a: &u32| a.wrapping_mul(2_654_435_761).wrapping_mul(2_246_822_507);
    let turn = |b: u32| b.wrapping_mul(2_246_822_507);
    let mut firsts: Vec<u32> = (0..verts).collect();
    firsts.sort_unstable_by_key(product);
    let pairs_with = |b: u32| {
        let (before, from) =
            firsts.split_at(firsts.partition_point(|a| product(a) < turn(b).wrapping_neg()));
        let in_order = from.iter().chain(before);
        let mixed = move |a: &&u32| u64::from(product(a).wrapping_add(turn(b)));
        in_order
            .take_while(move |a| mixed(a) * u64::from(lines) >> 32 == 0)
            .map(move |a| [*a, b])
    };
    let mut seconds: Vec<u32> = (0..verts).collect();
    shuffle(&mut seconds);
    mesh(verts, some(lines, seconds.into_iter().flat_map(pairs_with)))
}

/// As many of the pairs as there are lines, in no order, so that a search does not go where the one before has been.
fn some(lines: u32, pairs: impl Iterator<Item = [u32; 2]>) -> Vec<[u32; 2]> {
    let mut pairs: Vec<_> = pairs.take(lines as usize).collect();
    shuffle(&mut pairs);
    pairs
}

fn shuffle<T>(list: &mut [T]) {
    let mut rng = Rng::new(1);
    for last in (1..list.len()).rev() {
        list.swap(last, rng.below(last + 1));
    }
}

/// The pairs as lines; the vertices stand anywhere in a cube.
fn mesh(verts: u32, pairs: Vec<[u32; 2]>) -> Mesh {
    let mut rng = Rng::new(2);
    let mut coordinate = || (rng.below(2048) as f32 - 1024.0).to_bits();
    let vertex = |_| Vertex {
        bits: [coordinate(), coordinate(), coordinate(), 0],
        flags: 0,
        tag: 0,
        k: 0,
    };
    let line = |pair: [u32; 2]| Element {
        corners: pair.to_vec(),
        parity: 0,
    };
    Mesh {
        verts: (0..verts).map(vertex).collect(),
        lines: pairs.into_iter().map(line).collect(),
        ..Mesh::empty(Kind::Simplices)
    }
}

#[cfg(test)]
mod tests {
    use super::*;
    use reference::memory::judge_mesh;
    use std::collections::HashSet;

    const LINES: u32 = 3_000;

    fn bucket(buckets: u32, [a, b]: [u32; 2]) -> u64 {
        circled(buckets, a * FIRST + b * SECOND)
    }

    fn pairs(mesh: &Mesh) -> Vec<[u32; 2]> {
        let pair = |line: &Element| [line.corners[0], line.corners[1]];
        mesh.lines.iter().map(pair).collect()
    }

    /// How many entries the search for a new pair looks at, on the whole: a pair's bits, from the lowest of its second end, lead to the first
    /// place of the tree that is free.
    fn looks(mesh: &Mesh) -> f64 {
        let mut taken = HashSet::new();
        let mut look = |[a, b]: [u32; 2]| {
            let key = u128::from(a) << 32 | u128::from(b);
            let home = bucket(mesh.lines.len() as u32, [a, b]);
            (0..=64).find(|depth| taken.insert((home, *depth, key & ((1 << depth) - 1))))
        };
        let looks: u32 = pairs(mesh).into_iter().filter_map(&mut look).sum();
        f64::from(looks) / mesh.lines.len() as f64
    }

    /// Every line has its own pair, and where it is said so, all pairs are in bucket 0.
    #[test]
    fn the_pairs_are_where_they_should_be() {
        let deep = deep_in_one_bucket(LINES, verts(LINES));
        for (mesh, crowded) in [
            (anywhere(LINES), false),
            (in_one_chain(LINES), false),
            (in_one_bucket(LINES), true),
            (deep, true),
        ] {
            assert_eq!(
                (judge_mesh(&mesh), mesh.lines.len()),
                (None, LINES as usize)
            );
            let pairs = pairs(&mesh);
            assert_eq!(pairs.iter().collect::<HashSet<_>>().len(), LINES as usize);
            assert_eq!(pairs.iter().all(|p| bucket(LINES, *p) == 0), crowded);
        }
    }

    /// How deep the trees are that docs/BENCHMARKS.md measures; and the deepest, which takes about as many vertices as the limit leaves: so
    /// many of them have a pair with the same second end that its upper bits, which are all 0, are a part of the way.
    #[test]
    fn the_trees_are_as_deep_as_can_be() {
        let found = [
            anywhere(LINES),
            in_one_chain(LINES),
            in_one_bucket(LINES),
            deep_in_one_bucket(LINES, verts(LINES)),
            deep_in_one_bucket(LINES, 1_040_000),
        ];
        let found = found.map(|mesh| (10.0 * looks(&mesh)).round() / 10.0);
        assert_eq!(found, [0.5, 0.4, 10.3, 12.9, 48.6]);
    }
}

//! Normalising, against document 01's section 1 written out in Rust: dot from left to right, 1 / root(dot), each component times
//! that; where dot is 0 the vector is Flat, which leaves +0 in every place and answers false.
use crate::{exports, random::Random, same, Compared};

const VECTORS: u64 = 1_000_000;

pub fn spread3() -> Compared {
    compare(exports::normalise_3d, 3)
}

pub fn spread4() -> Compared {
    compare(exports::normalise_4d, 4)
}

/// x·x + y·y, then + z·z, then + w·w; each step rounds.
fn dot<const N: usize>(v: &[f32; N]) -> f32 {
    let mut sum = v[0] * v[0];
    for c in &v[1..] {
        sum += c * c;
    }
    sum
}

fn normalise<const N: usize>(v: &[f32; N]) -> ([f32; N], bool) {
    let square = dot(v);
    if square == 0.0 {
        return ([0.0; N], false);
    }
    let r = 1.0 / square.sqrt();
    (v.map(|c| c * r), true)
}

fn compare<const N: usize>(export: impl Fn(&mut [f32; N]) -> bool, seed: u64) -> Compared {
    let mut random = Random::new(seed);
    let mut found = Compared::default();
    for _ in 0..VECTORS {
        let v: [f32; N] = random.vector();
        let mut ours = v;
        let directed = export(&mut ours);
        let (theirs, expected) = normalise(&v);
        let equal = directed == expected && ours.iter().zip(&theirs).all(|(a, b)| same(*a, *b));
        found.input(equal, || {
            format!(
                "normal of {:08X?} is {directed} {:08X?}, and by Rust {expected} {:08X?}",
                bits(&v),
                bits(&ours),
                bits(&theirs)
            )
        });
    }
    found
}

fn bits<const N: usize>(v: &[f32; N]) -> [u32; N] {
    v.map(f32::to_bits)
}

#[cfg(test)]
mod tests {
    use super::*;

    #[test]
    fn a_million_normals_of_3_components_are_rusts() {
        let found = spread3();
        assert_eq!((found.inputs, found.first), (1_000_000, None));
    }

    #[test]
    fn a_million_normals_of_4_components_are_rusts() {
        let found = spread4();
        assert_eq!((found.inputs, found.first), (1_000_000, None));
    }

    /// The generator reaches every kind of answer: Flat, a finite direction, and one with a NaN or an infinity in it.
    #[test]
    fn every_kind_of_answer_is_met() {
        let mut random = Random::new(3);
        let (mut flat, mut finite, mut other) = (0, 0, 0);
        for _ in 0..10_000 {
            match normalise::<3>(&random.vector()) {
                (_, false) => flat += 1,
                (v, true) if v.iter().all(|c| c.is_finite()) => finite += 1,
                _ => other += 1,
            }
        }
        assert!(
            flat > 100 && finite > 100 && other > 100,
            "{flat} flat, {finite} finite, {other} others"
        );
    }

    /// Two components the wrong way round, and Flat called a direction, are found.
    #[test]
    fn wrong_normals_are_noticed() {
        let swapped = |v: &mut [f32; 3]| {
            let directed = exports::normalise_3d(v);
            v.swap(1, 2);
            directed
        };
        assert!(compare(swapped, 3).apart > 0);
        let never_flat = |v: &mut [f32; 3]| {
            exports::normalise_3d(v);
            true
        };
        assert!(compare(never_flat, 3).apart > 0);
    }
}

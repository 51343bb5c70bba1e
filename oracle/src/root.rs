//! The square root against `f32::sqrt`, which is IEEE 754's.
use crate::{exports, same, Compared};
use std::{ops::Range, thread};

/// An odd step, so that its multiples modulo 2^32 spread over all patterns.
const STEP: u32 = 0x9E37_79B1;
const SPREAD: u32 = 1_000_000;

/// Every pattern, a quarter to a thread. Two of the quarters lie below zero, where there is no root to work out.
pub fn all() -> Compared {
    let quarter = |q: u64| thread::spawn(move || each(exports::root, q << 30..(q + 1) << 30));
    let quarters = [0, 1, 2, 3].map(quarter);
    quarters
        .into_iter()
        .fold(Compared::default(), |found, quarter| {
            found.then(quarter.join().expect("a comparison does not panic"))
        })
}

/// The first million multiples of the step.
pub fn spread() -> Compared {
    multiples(exports::root)
}

fn each(root: impl Fn(f32) -> f32, patterns: Range<u64>) -> Compared {
    let mut found = Compared::default();
    for pattern in patterns {
        compare(&root, pattern as u32, &mut found);
    }
    found
}

fn multiples(root: impl Fn(f32) -> f32) -> Compared {
    let mut found = Compared::default();
    for i in 0..SPREAD {
        compare(&root, i.wrapping_mul(STEP), &mut found);
    }
    found
}

fn compare(root: &impl Fn(f32) -> f32, pattern: u32, found: &mut Compared) {
    let x = f32::from_bits(pattern);
    let (ours, theirs) = (root(x), x.sqrt());
    found.input(same(ours, theirs), || {
        format!(
            "root of {pattern:08X} is {:08X}, and by f32::sqrt {:08X}",
            ours.to_bits(),
            theirs.to_bits()
        )
    });
}

#[cfg(test)]
mod tests {
    use super::*;

    #[test]
    fn a_million_spread_roots_are_those_of_f32_sqrt() {
        let found = spread();
        assert_eq!((found.inputs, found.first), (1_000_000, None));
    }

    /// Both values are document 01's, P11 and P12.
    #[test]
    fn the_marked_roots() {
        assert_eq!(exports::root(2.0).to_bits(), 0x3FB5_04F3);
        assert_eq!(exports::root(f32::from_bits(1)).to_bits(), 0x1A35_04F3);
    }

    /// A root that is wrong at one pattern alone, that of 1.0, is found.
    #[test]
    fn a_wrong_root_is_noticed() {
        let found = each(
            |x| {
                if x == 1.0 {
                    1.0 + f32::EPSILON
                } else {
                    x.sqrt()
                }
            },
            0x3F7F_FF00..0x3F80_0100,
        );
        assert_eq!((found.inputs, found.apart), (512, 1));
        assert_eq!(
            found.first.as_deref(),
            Some("root of 3F800000 is 3F800001, and by f32::sqrt 3F800000")
        );
    }
}

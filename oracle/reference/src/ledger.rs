//! Section 5: the ledger of a mesh's faces, and its refinement over the midpoints of a model, so that no cell of what is held against it
//! is asked. And document 02's U8: how a ledger of squares becomes one of triangles, and how that is read.

use std::collections::{btree_map::Entry, BTreeMap};

use crate::{
    mesh::{Kind, Mesh},
    model::{is_flat_square, Model},
};

/// The entries other than 0.
pub type Ledger = BTreeMap<Vec<u32>, i64>;

/// Adds a number other than 0 to a face's entry.
fn add(ledger: &mut Ledger, face: Vec<u32>, number: i64) {
    match ledger.entry(face) {
        Entry::Vacant(entry) => {
            entry.insert(number);
        }
        Entry::Occupied(entry) if *entry.get() == -number => {
            entry.remove();
        }
        Entry::Occupied(mut entry) => *entry.get_mut() += number,
    }
}

/// "nothing is added to a flat square".
fn add_square(ledger: &mut Ledger, square: [u32; 4], number: i64) {
    if !is_flat_square(&square) {
        add(ledger, square.to_vec(), number);
    }
}

/// "the signed whole number that the mesh's volumes add up to from 0".
#[must_use]
pub fn ledger(mesh: &Mesh) -> Ledger {
    const FACES: [(i64, [usize; 4]); 6] = [
        (-1, [0, 1, 2, 3]),
        (1, [0, 1, 4, 5]),
        (-1, [0, 2, 4, 6]),
        (1, [1, 3, 5, 7]),
        (-1, [2, 3, 6, 7]),
        (1, [4, 5, 6, 7]),
    ];
    let mut out = Ledger::new();
    for e in &mesh.volumes {
        let sign = if e.parity == 0 { 1 } else { -1 };
        match mesh.kind {
            Kind::Simplices => {
                for i in 0..4 {
                    let mut face = e.corners.clone();
                    face.remove(i);
                    add(&mut out, face, if i % 2 == 0 { sign } else { -sign });
                }
            }
            Kind::Cubes => {
                for (side, face) in FACES {
                    add_square(&mut out, face.map(|c| e.corners[c]), side * sign);
                }
            }
        }
    }
    out
}

/// "every entry other than 0 is refined over the midpoints after pass k".
#[must_use]
pub fn refined(ledger: &Ledger, model: &Model) -> Ledger {
    let mut out = Ledger::new();
    let mid = |a: u32, b: u32| model.known(a, b);
    for (face, number) in ledger {
        match face[..] {
            [a, b, c] => {
                let (p, q, r) = (mid(a, b), mid(a, c), mid(b, c));
                add(&mut out, vec![a, p, q], *number);
                add(&mut out, vec![p, b, r], *number);
                add(&mut out, vec![q, r, c], *number);
                add(&mut out, vec![p, q, r], -*number);
            }
            [a, b, c, d] => {
                let (ab, ac, ad, bd, cd) = (mid(a, b), mid(a, c), mid(a, d), mid(b, d), mid(c, d));
                add_square(&mut out, [a, ab, ac, ad], *number);
                add_square(&mut out, [ab, b, ad, bd], *number);
                add_square(&mut out, [ac, ad, c, cd], *number);
                add_square(&mut out, [ad, bd, cd, d], *number);
            }
            _ => unreachable!(),
        }
    }
    out
}

/// "each square [a,b,c,d] replaced by [a,b,d] minus [a,c,d]".
#[must_use]
pub fn replaced(squares: &Ledger) -> Ledger {
    let mut out = Ledger::new();
    for (square, number) in squares {
        let [a, b, c, d] = square[..] else {
            unreachable!("the faces of cubes have four corners")
        };
        add(&mut out, vec![a, b, d], *number);
        add(&mut out, vec![a, c, d], -*number);
    }
    out
}

/// "read without triples that have equal neighbours".
#[must_use]
pub fn read(triangles: &Ledger) -> Ledger {
    let apart = |triple: &[u32]| triple[0] != triple[1] && triple[1] != triple[2];
    let entries = triangles.iter().filter(|(triple, _)| apart(triple));
    entries.map(|(triple, n)| (triple.clone(), *n)).collect()
}

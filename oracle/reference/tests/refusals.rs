//! Each refusal by itself and each neighbouring pair at once, in files and in memory.

mod common;

use common::{curve, even, with_verts};
use reference::{
    file,
    memory::{Bench, Ended, Handed},
    mesh::{Kind, Lent, Mesh, Sizes, LIMIT},
    sheet::{self, Sheet},
};

const KINDS: [Kind; 2] = [Kind::Cubes, Kind::Simplices];
const NAN: u32 = 0x7fc0_0000;

/// Three vertices, and an entry in every list.
fn sound(kind: Kind) -> Mesh {
    let [_, area, volume] = kind.corners();
    let corners = |n: usize| (0..n as u32).map(|i| i % 3).collect::<Vec<_>>();
    let mut mesh = with_verts(kind, 3);
    mesh.points = vec![2];
    mesh.lines = vec![even(&[0, 1])];
    mesh.areas = vec![even(&corners(area))];
    mesh.volumes = vec![even(&corners(volume))];
    mesh.curves = vec![curve(&[0, 1], &[1]), curve(&[2], &[])];
    mesh
}

fn judged(bytes: &[u8]) -> Option<u8> {
    file::decode(bytes, &Sizes::all(1024)).err()
}

fn changed(kind: Kind, change: impl Fn(&mut Mesh)) -> Vec<u8> {
    let mut mesh = sound(kind);
    change(&mut mesh);
    file::encode(&mesh)
}

#[test]
fn a_file_of_each_refusal() {
    for kind in KINDS {
        let whole = changed(kind, |_| {});
        assert_eq!(file::decode(&whole, &Sizes::all(1024)), Ok(sound(kind)));

        for version in [0, 2, 255] {
            let mut bytes = whole.clone();
            bytes[0] = version;
            assert_eq!(judged(&bytes), Some(1));
        }
        for byte in [2, 255] {
            let mut bytes = whole.clone();
            bytes[1] = byte;
            assert_eq!(judged(&bytes), Some(2));
        }
        for length in 0..whole.len() {
            assert_eq!(judged(&whole[..length]), Some(3));
        }
        let mut more = whole.clone();
        more.push(0);
        assert_eq!(judged(&more), Some(4));

        assert_eq!(judged(&changed(kind, |m| m.verts[2].flags = 16)), Some(5));
        assert_eq!(judged(&changed(kind, |m| m.lines[0].parity = 2)), Some(5));
        assert_eq!(judged(&changed(kind, |m| m.areas[0].parity = 2)), Some(5));
        assert_eq!(
            judged(&changed(kind, |m| m.volumes[0].parity = 255)),
            Some(5)
        );
        assert_eq!(
            judged(&changed(kind, |m| m.curves[0].steps[0] = 2)),
            Some(5)
        );
        for bits in [NAN, 0x7f80_0000, 0xff80_0000, 0x4480_0001, 0xc480_0001] {
            assert_eq!(
                judged(&changed(kind, |m| m.verts[1].bits[3] = bits)),
                Some(6)
            );
        }
        assert_eq!(judged(&changed(kind, |m| m.points[0] = 3)), Some(7));
        assert_eq!(
            judged(&changed(kind, |m| m.lines[0].corners[1] = 3)),
            Some(7)
        );
        assert_eq!(
            judged(&changed(kind, |m| m.areas[0].corners[2] = u32::MAX)),
            Some(7)
        );
        assert_eq!(
            judged(&changed(kind, |m| m.volumes[0].corners[3] = 3)),
            Some(7)
        );
        assert_eq!(
            judged(&changed(kind, |m| m.curves[1].verts[0] = 3)),
            Some(7)
        );
        assert_eq!(
            judged(&changed(kind, |m| m.curves[1] = curve(&[], &[]))),
            Some(8)
        );
    }
}

#[test]
fn lent_cells_of_a_file() {
    for kind in KINDS {
        let bytes = changed(kind, |_| {});
        let full = sound(kind).sizes();
        assert_eq!(file::decode(&bytes, &full), Ok(sound(kind)));
        let mut short = [full; 7];
        short[0].verts -= 1;
        short[1].points -= 1;
        short[2].lines -= 1;
        short[3].areas -= 1;
        short[4].volumes -= 1;
        short[5].curves -= 1;
        short[6].curve_verts -= 1;
        for lent in short {
            assert_eq!(file::decode(&bytes, &lent), Err(10));
        }
    }
}

/// 9 before all: a list's two benches are unequal, by a row or by a word.
#[test]
fn unequal_benches_of_a_file() {
    let longer: [fn(&mut Bench) -> &mut Vec<u32>; 8] = [
        |b| &mut b.pos,
        |b| &mut b.marks,
        |b| &mut b.points,
        |b| &mut b.lines,
        |b| &mut b.areas,
        |b| &mut b.volumes,
        |b| &mut b.curves,
        |b| &mut b.curve_verts,
    ];
    for kind in KINDS {
        let bytes = changed(kind, |_| {});
        let full = Bench::lent(kind, &sound(kind).sizes());
        assert_eq!(file::decode_onto(&bytes, &full, &full), Ok(sound(kind)));
        for slice in longer {
            for words in [1, 9] {
                let mut other = full.clone();
                slice(&mut other).extend(vec![0; words]);
                assert_eq!(file::decode_onto(&bytes, &full, &other), Err(9));
                assert_eq!(file::decode_onto(&[], &other, &full), Err(9));
                assert_eq!(file::decode_onto(&bytes, &other, &other), Ok(sound(kind)));
            }
        }
    }
}

/// Field by field: of two refusals at once the earlier field's is given, and 4 comes after all others.
#[test]
fn two_refusals_in_a_file() {
    for kind in KINDS {
        let whole = changed(kind, |_| {});
        let mut bytes = whole.clone();
        bytes[0] = 0;
        bytes[1] = 2;
        assert_eq!(judged(&bytes), Some(1)); // 1 and 2
        assert_eq!(judged(&[1, 2]), Some(2)); // 2 and 3
        assert_eq!(judged(&[0]), Some(1)); // 1 and 3

        // 3 and 5, 3 and 6, 3 and 7: a bad field that is whole, and an end after it; a bad field cut off.
        let x = changed(kind, |m| m.verts[0].bits[0] = NAN);
        assert_eq!(judged(&x[..10]), Some(6));
        assert_eq!(judged(&x[..9]), Some(3));
        let flags = changed(kind, |m| m.verts[0].flags = 16);
        assert_eq!(judged(&flags[..23]), Some(5));
        assert_eq!(judged(&flags[..22]), Some(3));
        let point = changed(kind, |m| m.points[0] = 3);
        let at = 6 + 3 * 25 + 4;
        assert_eq!(judged(&point[..at + 4]), Some(7));
        assert_eq!(judged(&point[..at + 3]), Some(3));

        // 5 and 6, either first.
        let coordinate_first = changed(kind, |m| {
            m.verts[0].bits[3] = NAN;
            m.verts[0].flags = 16;
        });
        assert_eq!(judged(&coordinate_first), Some(6));
        let flags_first = changed(kind, |m| {
            m.verts[0].flags = 16;
            m.verts[1].bits[0] = NAN;
        });
        assert_eq!(judged(&flags_first), Some(5));
        // 6 and 7.
        let coordinate_and_point = changed(kind, |m| {
            m.verts[2].bits[0] = NAN;
            m.points[0] = 3;
        });
        assert_eq!(judged(&coordinate_and_point), Some(6));
        // 5 and 7, either first: a corner before its parity, a parity before the next list.
        let corner_first = changed(kind, |m| {
            m.lines[0].corners[1] = 3;
            m.lines[0].parity = 2;
        });
        assert_eq!(judged(&corner_first), Some(7));
        let parity_first = changed(kind, |m| {
            m.lines[0].parity = 2;
            m.areas[0].corners[0] = 3;
        });
        assert_eq!(judged(&parity_first), Some(5));
        // 7 and 8, either first.
        let vertex_first = changed(kind, |m| {
            m.curves[0].verts[1] = 3;
            m.curves[1] = curve(&[], &[]);
        });
        assert_eq!(judged(&vertex_first), Some(7));
        let empty_first = changed(kind, |m| {
            m.curves[0] = curve(&[], &[]);
            m.curves[1].verts[0] = 3;
        });
        assert_eq!(judged(&empty_first), Some(8));
        // A curve's vertices come before its parities.
        let vertex_and_step = changed(kind, |m| {
            m.curves[0].verts[1] = 3;
            m.curves[0].steps[0] = 2;
        });
        assert_eq!(judged(&vertex_and_step), Some(7));
        // 8 and 10, either first.
        let lent = Sizes {
            curve_verts: 1,
            ..Sizes::all(8)
        };
        let empty = changed(kind, |m| m.curves[0] = curve(&[], &[]));
        assert_eq!(file::decode(&empty, &lent), Err(8));
        let long = changed(kind, |m| m.curves[1] = curve(&[], &[]));
        assert_eq!(file::decode(&long, &lent), Err(10));
        // 10 and 7: a curve's count is judged before its vertices.
        assert_eq!(file::decode(&vertex_first, &lent), Err(10));
        // 4 and each other one.
        for bad in [&x, &flags, &point, &empty, &bytes, &vertex_first] {
            let first = judged(bad);
            let mut more = bad.clone();
            more.push(0);
            assert_eq!(judged(&more), first);
            assert!(first.is_some() && first != Some(4));
        }
    }
}

/// A count is held against 10 alone, never against the bytes left.
#[test]
fn counts_of_a_file() {
    let with_count = |count: u32| [&[1, 0][..], &count.to_be_bytes()].concat();
    assert_eq!(judged(&with_count(1024)), Some(3));
    assert_eq!(judged(&with_count(1025)), Some(10));
    assert_eq!(judged(&with_count(u32::MAX)), Some(10));
    let lent = Sizes::all(usize::MAX);
    assert_eq!(file::decode(&with_count(LIMIT as u32), &lent), Err(3));
    assert_eq!(file::decode(&with_count(LIMIT as u32 + 1), &lent), Err(10));

    // A curve's count, on the total so far.
    let curves = |lengths: [u32; 2]| {
        let mut mesh = with_verts(Kind::Cubes, 1);
        mesh.curves = vec![curve(&[0], &[]); 2];
        let mut bytes = file::encode(&mesh);
        let end = bytes.len();
        bytes[end - 8..end - 4].copy_from_slice(&lengths[1].to_be_bytes());
        bytes[end - 20..end - 16].copy_from_slice(&lengths[0].to_be_bytes());
        bytes
    };
    assert_eq!(judged(&curves([1, 1])), None);
    assert_eq!(judged(&curves([1, 1023])), Some(3));
    assert_eq!(judged(&curves([1, 1024])), Some(10));
    assert_eq!(judged(&curves([1, u32::MAX])), Some(10));
    assert_eq!(judged(&curves([1, 0])), Some(8));
    assert_eq!(judged(&curves([u32::MAX, 0])), Some(10));
}

#[test]
fn inputs_of_sheet() {
    assert_eq!(Sheet::Mesh.of(&[]), "refused 3 after 0\n");
    assert_eq!(Sheet::Mesh.of(&[1]), "refused 3 after 0\n");
    assert_eq!(Sheet::Mesh.of(&[1, 2]), "refused 5 after 0\n");
    assert_eq!(Sheet::Mesh.of(&[1, 1]), "refused 3 after 0\n");
    assert_eq!(Sheet::Mesh.of(&[1, 2, 9]), "refused 5 after 0\n");
    assert_eq!(Sheet::Mesh.of(&[1, 1, 9]), "refused 1 after 0\n");

    // 65,536 bytes are all of standard input; one more is 10 whatever they are.
    let mut input = sheet::input(0, false, &Mesh::empty(Kind::Cubes));
    input.resize(65_536, 0);
    assert_eq!(Sheet::Mesh.of(&input), "refused 4 after 0\n");
    input.push(0);
    assert_eq!(Sheet::Mesh.of(&input), "refused 10 after 0\n");
    assert_eq!(Sheet::Mesh.of(&[9; 65_537]), "refused 10 after 0\n");

    let mut line = with_verts(Kind::Cubes, 2);
    line.lines = vec![even(&[0, 1])];
    assert_eq!(
        Sheet::Mesh.of(&sheet::input(255, true, &line)),
        "refused 10 after 9\n"
    );
}

/// A change of what is handed in, and the refusal that it is due.
type Change = (u8, fn(&mut Handed));

/// In memory, each with its number, in the order in which they are judged.
const CHANGES: [Change; 26] = [
    (9, |h| h.counts.verts = 9),
    (9, |h| h.counts.points = 9),
    (9, |h| h.counts.lines = 9),
    (9, |h| h.counts.areas = 9),
    (9, |h| h.counts.volumes = 9),
    (9, |h| h.counts.curves = 9),
    (9, |h| h.counts.curve_verts = 9),
    (9, |h| h.counts.curve_verts = 4),
    (9, |h| h.first.curves[1] = u32::MAX),
    (9, |h| h.second.points.push(0)),
    (9, |h| h.second.marks.truncate(3)),
    // As many cells, and other lengths.
    (9, |h| h.second.pos.extend([0; 4])),
    (9, |h| h.second.areas.push(0)),
    (9, |h| h.sum -= 1),
    (9, |h| h.tally -= 1),
    // The other has as many cells as the vertices.
    (9, |h| h.sum += 4),
    (9, |h| h.tally += 2),
    (5, |h| h.first.marks[0] = 16),
    (5, |h| h.first.lines[2] = 2),
    (5, |h| h.first.curve_verts[1] = 2),
    (6, |h| h.first.pos[0] = NAN),
    (6, |h| h.first.pos[11] = 0xc480_0001),
    (7, |h| h.first.points[0] = 3),
    (7, |h| h.first.lines[1] = u32::MAX),
    (7, |h| h.first.curve_verts[4] = 3),
    // The curve of one vertex is given to the one before it.
    (8, |h| {
        h.first.curves[1] = h.first.curves[1].saturating_add(1);
        h.first.curves[3] = 0;
    }),
];

#[test]
fn in_memory_each_and_each_two() {
    for kind in KINDS {
        let handed = Handed::lend(&sound(kind), &Lent::all(8));
        for smooth_time in [0, 1] {
            assert_eq!(handed.judge(smooth_time), None);
        }
        for smooth_time in [2, 255, u32::MAX] {
            assert_eq!(handed.judge(smooth_time), Some(5));
        }
        for (i, (number, change)) in CHANGES.iter().enumerate() {
            let mut bad = handed.clone();
            change(&mut bad);
            assert_eq!(bad.judge(0), Some(*number), "change {i}");
            assert_eq!(bad.judge(2), Some(if *number == 9 { 9 } else { 5 }));
            for depth in [0, 1, 255] {
                let answer = bad.subdivide(depth, 0);
                assert_eq!((answer.passes, answer.ended), (0, Ended::Refused(*number)));
            }
            for (later, another) in CHANGES.iter().filter(|(later, _)| later != number) {
                let mut worse = bad.clone();
                another(&mut worse);
                let first = [9, 5, 6, 7, 8]
                    .into_iter()
                    .find(|n| n == number || n == later);
                assert_eq!(worse.judge(0), first);
            }
        }
    }
}

/// 10 for the lists handed in: above the limit within lent cells, after 8 and at depth 0 too.
#[test]
fn in_memory_more_than_the_limit() {
    let mut mesh = with_verts(Kind::Cubes, 1);
    mesh.points = vec![0; LIMIT + 1];
    let lent = Lent {
        lists: Sizes {
            points: LIMIT + 2,
            ..Sizes::all(4)
        },
        book: 4,
    };
    let handed = Handed::lend(&mesh, &lent);
    assert_eq!(handed.judge(0), Some(10));
    assert_eq!(handed.subdivide(0, 0).ended, Ended::Refused(10));

    // 8 and 10 at once.
    mesh.curves = vec![curve(&[], &[])];
    mesh.curves[0].steps.clear();
    let handed = Handed::lend(&mesh, &lent);
    assert_eq!(handed.judge(0), Some(8));

    mesh.curves.clear();
    mesh.points.pop();
    let handed = Handed::lend(&mesh, &lent);
    assert_eq!(handed.judge(0), None);
    assert_eq!(handed.subdivide(2, 0).passes, 2);
}

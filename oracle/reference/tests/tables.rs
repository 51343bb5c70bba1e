//! Document 01's tables: P1 to P12, section 8's example, the range of coordinates, full lists and one short.

mod common;

use common::{curve, even, odd, positions, vertex, with_verts};
use reference::{
    memory::{refine_within, subdivided, Ended, Handed},
    mesh::{Kind, Lent, Mesh},
    model::Model,
    random::{self, Bounds, Rng},
    sheet::{self, Sheet},
};

const KINDS: [Kind; 2] = [Kind::Cubes, Kind::Simplices];

fn corners(list: &[reference::mesh::Element]) -> Vec<Vec<u32>> {
    list.iter().map(|e| e.corners.clone()).collect()
}

#[test]
fn p1_depth_0_leaves_the_mesh() {
    for kind in KINDS {
        for seed in 0..50 {
            let mesh = random::mesh(&mut Rng::new(seed), kind, &Bounds::default());
            let answer = Handed::lend(&mesh, &Lent::all(64)).subdivide(0, 0);
            assert_eq!((answer.passes, answer.ended), (0, Ended::Finished));
            assert_eq!(answer.left, Some(mesh));
        }
    }
}

#[test]
fn p2_p3_line_of_one_point() {
    let mut mesh = with_verts(Kind::Cubes, 1);
    mesh.lines = vec![even(&[0, 0])];
    let after = subdivided(&mesh, 1, false);
    assert_eq!((after.verts.len(), after.lines.len()), (1, 0));

    mesh.kind = Kind::Simplices;
    let after = subdivided(&mesh, 1, false);
    assert_eq!(after.verts.len(), 2);
    assert_eq!(after.lines, [even(&[0, 1]), even(&[1, 0])]);
}

#[test]
fn p4_a_line_twice() {
    for kind in KINDS {
        let mut mesh = with_verts(kind, 2);
        mesh.lines = vec![even(&[0, 1]), even(&[0, 1])];
        let after = subdivided(&mesh, 1, false);
        assert_eq!(after.verts.len(), 3);
        assert_eq!(after.lines, [even(&[0, 2]), even(&[2, 1])]);
    }
}

#[test]
fn p5_a_line_and_its_reverse() {
    for kind in KINDS {
        let mut mesh = with_verts(kind, 2);
        mesh.lines = vec![even(&[0, 1]), odd(&[1, 0])];
        let after = subdivided(&mesh, 1, false);
        assert_eq!(after.verts.len(), 4);
        assert_eq!(
            after.lines,
            [even(&[0, 2]), even(&[2, 1]), odd(&[1, 3]), odd(&[3, 0])]
        );
        // The carried code gives tag and k of the first end (tests/differences.rs).
        assert_eq!((after.verts[2].tag, after.verts[2].k), (100, 200));
        assert_eq!((after.verts[3].tag, after.verts[3].k), (101, 201));
    }
}

#[test]
fn p6_triangle() {
    let mut mesh = Mesh::empty(Kind::Simplices);
    mesh.verts = [[0., 0.], [36., 0.], [0., 36.]]
        .map(|[x, y]| vertex([x, y, 0., 0.]))
        .to_vec();
    mesh.areas = vec![even(&[0, 1, 2])];
    let after = subdivided(&mesh, 1, false);
    let expected = [
        [6., 6.],
        [24., 6.],
        [6., 24.],
        [14., 8.],
        [8., 14.],
        [14., 14.],
    ];
    assert_eq!(positions(&after), expected.map(|[x, y]| [x, y, 0., 0.]));
    assert_eq!(
        after.areas,
        [
            even(&[0, 3, 4]),
            even(&[3, 1, 5]),
            even(&[4, 5, 2]),
            odd(&[3, 4, 5])
        ]
    );
}

#[test]
fn p7_square() {
    let mut mesh = with_verts(Kind::Cubes, 4);
    mesh.areas = vec![odd(&[0, 1, 2, 3])];
    let after = subdivided(&mesh, 1, false);
    assert_eq!(
        after.areas,
        [
            odd(&[0, 5, 6, 4]),
            odd(&[5, 1, 4, 7]),
            odd(&[6, 4, 2, 8]),
            odd(&[4, 7, 8, 3])
        ]
    );
}

#[test]
fn p8_square_whose_first_corner_is_its_last() {
    let mut mesh = with_verts(Kind::Cubes, 3);
    mesh.areas = vec![even(&[0, 1, 2, 0])];
    let after = subdivided(&mesh, 1, false);
    assert_eq!((after.verts.len(), after.areas.len()), (3, 0));
}

#[test]
fn p9_flat_cube() {
    let mut mesh = with_verts(Kind::Cubes, 4);
    mesh.volumes = vec![even(&[0, 0, 1, 1, 2, 2, 3, 3])];
    let after = subdivided(&mesh, 1, false);
    assert_eq!((after.verts.len(), after.volumes.len()), (9, 0));
}

#[test]
fn p10_curve() {
    for kind in KINDS {
        let mut mesh = with_verts(kind, 3);
        mesh.curves = vec![curve(&[0, 1, 2], &[0, 1])];
        let after = subdivided(&mesh, 1, false);
        assert_eq!(after.curves, [curve(&[0, 3, 1, 4, 2], &[0, 0, 1, 1])]);
        // The second key is [2,1]: its vertex has the tag of vertex 2 in the carried code.
        assert_eq!(after.verts[4].tag, 102);
    }
}

#[test]
fn p11_p12_roots() {
    assert_eq!(2f32.sqrt().to_bits(), 0x3fb5_04f3);
    assert_eq!(f32::from_bits(1).sqrt().to_bits(), 0x1a35_04f3);
}

/// The bytes of section 8's example, written out by hand.
#[test]
fn example_of_section_8() {
    let mut input = vec![1, 0, 1, 0];
    input.extend([0, 0, 0, 2]);
    input.extend([0; 25]);
    input.extend([0x41, 0, 0, 0]);
    input.extend([0; 21]);
    input.extend([0, 0, 0, 0]);
    input.extend([0, 0, 0, 1, 0, 0, 0, 0, 0, 0, 0, 1, 0]);
    input.extend([0; 12]);
    let expected = "passes 1\n\
        v 0 40000000 00000000 00000000 00000000\n\
        v 1 40C00000 00000000 00000000 00000000\n\
        v 2 40800000 00000000 00000000 00000000\n\
        l 0 2 e\n\
        l 2 1 e\n";
    assert_eq!(Sheet::Mesh.of(&input), expected);

    let mut mesh = Mesh::empty(Kind::Cubes);
    mesh.verts = vec![vertex([0.; 4]), vertex([8., 0., 0., 0.])];
    mesh.lines = vec![even(&[0, 1])];
    assert_eq!(sheet::input(1, false, &mesh), input);
}

#[test]
fn listing_of_every_line_form() {
    let mut mesh = with_verts(Kind::Simplices, 4);
    mesh.verts
        .iter_mut()
        .for_each(|v| v.bits = [0, 0x8000_0000, 0x4480_0000, 0xc480_0000]);
    mesh.points = vec![3];
    mesh.lines = vec![odd(&[1, 0])];
    mesh.areas = vec![even(&[0, 1, 2])];
    mesh.volumes = vec![odd(&[0, 1, 2, 3])];
    mesh.curves = vec![curve(&[3], &[]), curve(&[0, 1, 1], &[0, 1])];
    let expected = "passes 0\n\
        v 0 00000000 80000000 44800000 C4800000\n\
        v 1 00000000 80000000 44800000 C4800000\n\
        v 2 00000000 80000000 44800000 C4800000\n\
        v 3 00000000 80000000 44800000 C4800000\n\
        p 3\nl 1 0 o\na 0 1 2 e\ns 0 1 2 3 o\nc 3\nc 0 1 1 e o\n";
    let input = sheet::input(0, true, &mesh);
    assert_eq!(Sheet::Mesh.of(&input), expected);
    // Every parity changed (document 02, U5).
    let (verts, _) = expected.split_once("p 3").unwrap();
    let turned = "p 3\nl 1 0 e\na 0 1 2 o\ns 0 1 2 3 e\nc 3\nc 0 1 1 o e\n";
    assert_eq!(Sheet::Turned.of(&input), format!("{verts}{turned}"));
}

#[test]
fn coordinates_up_to_1024() {
    for sign in [0, 0x8000_0000] {
        for axis in 0..4 {
            let mut mesh = with_verts(Kind::Cubes, 1);
            mesh.verts[0].bits[axis] = 0x4480_0000 | sign;
            assert!(sheet::read(&sheet::input(0, false, &mesh)).is_ok());
            assert_eq!(Handed::lend(&mesh, &Lent::all(8)).judge(0), None);
            mesh.verts[0].bits[axis] = 0x4480_0001 | sign;
            assert_eq!(sheet::read(&sheet::input(0, false, &mesh)), Err(6));
            assert_eq!(Handed::lend(&mesh, &Lent::all(8)).judge(0), Some(6));
        }
    }
}

/// "a fresh book each pass (a cube with corners 0 = 3 and 2 = 7 meets an old pair again at depth 2)": two calls of
/// depth 1 make more vertices than one of depth 2.
#[test]
fn the_book_is_kept_through_the_passes() {
    let mut mesh = with_verts(Kind::Cubes, 6);
    mesh.volumes = vec![even(&[0, 1, 2, 0, 3, 4, 5, 2])];
    let kept = subdivided(&mesh, 2, false);
    let fresh = subdivided(&subdivided(&mesh, 1, false), 1, false);
    assert!(kept.verts.len() < fresh.verts.len());
}

/// Exactly full lists are accepted, one short of any of them is 10 after the passes before, and the mesh left is
/// that of the passes before. Points don't grow, so that they are full from the start.
#[test]
fn full_lists_and_one_short() {
    for kind in KINDS {
        let [_, area, volume] = kind.corners();
        let mut mesh = with_verts(kind, 8);
        mesh.points = vec![1];
        mesh.lines = vec![even(&[0, 1])];
        mesh.areas = vec![even(&(0..area as u32).collect::<Vec<_>>())];
        mesh.volumes = vec![odd(&(0..volume as u32).collect::<Vec<_>>())];
        mesh.curves = vec![curve(&[6, 7, 5], &[1, 0])];
        // The carried code's mesh, with the model's tags and k.
        let after = |passes: u8| {
            let mut left = subdivided(&mesh, passes, true);
            Model::new(&mesh).put_strands(passes.into(), &mut left);
            left
        };
        let (wanted, before) = (after(2), after(1));
        let full = Lent {
            lists: wanted.sizes(),
            book: wanted.verts.len() - 8,
        };
        let refined = refine_within(&mesh, &full, 2, true);
        assert_eq!((refined.passes, refined.ended), (2, Ended::Finished));
        assert_eq!(refined.mesh, wanted);

        let mut short = [full; 6];
        short[0].lists.verts -= 1;
        short[1].lists.lines -= 1;
        short[2].lists.areas -= 1;
        short[3].lists.volumes -= 1;
        short[4].lists.curve_verts -= 1;
        short[5].book -= 1;
        for lent in short {
            let answer = Handed::lend(&mesh, &lent).subdivide(2, 1);
            assert_eq!((answer.passes, answer.ended), (1, Ended::Refused(10)));
            assert_eq!(answer.sizes, before.sizes());
            assert_eq!(answer.left.as_ref(), Some(&before));
        }
    }
}

#[test]
fn depth_255() {
    for kind in KINDS {
        let mut mesh = with_verts(kind, 2);
        let refined = refine_within(&mesh, &Lent::all(2), 255, true);
        assert_eq!((refined.passes, refined.ended), (255, Ended::Finished));
        assert_eq!(refined.mesh, mesh);

        mesh.lines = vec![even(&[0, 1])];
        let refined = refine_within(&mesh, &Lent::all(1024), 255, true);
        // 2 to the power 9 lines are 513 vertices; one pass more has 1,025.
        assert_eq!((refined.passes, refined.ended), (9, Ended::Refused(10)));
        assert_eq!(refined.mesh.sizes().verts, 513);
        assert_eq!(corners(&refined.mesh.lines).len(), 512);
    }
}

/// A curve's last word has no step: it is carried, never judged.
#[test]
fn the_last_word_of_a_curve_is_carried() {
    let mut mesh = with_verts(Kind::Simplices, 2);
    mesh.curves = vec![curve(&[0, 1], &[1])];
    mesh.curves[0].steps[1] = 99;
    let answer = Handed::lend(&mesh, &Lent::all(8)).subdivide(1, 0);
    assert_eq!(answer.ended, Ended::Finished);
    assert_eq!(answer.left.unwrap().curves[0].steps, [1, 1, 99]);
}

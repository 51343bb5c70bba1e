//! Section 8 of document 01: files that are read, and files that are refused.
mod common;

use aljumeste::{read, Figure, Refusal, SimplicialGeometry, Vec4, VertData};
use common::{curve, listing, v, Even, Odd};

/// Section 8's example, its bytes written out by hand.
fn example() -> Vec<u8> {
    let mut file = vec![1, 0];
    file.extend([0, 0, 0, 2]);
    file.extend([0; 25]);
    file.extend([0x41, 0, 0, 0]);
    file.extend([0; 21]);
    file.extend([0, 0, 0, 0]);
    file.extend([0, 0, 0, 1, 0, 0, 0, 0, 0, 0, 0, 1, 0]);
    file.extend([0; 12]);
    file
}

#[test]
fn the_example_of_section_8() {
    let Ok(Figure::Cubes(mut mesh)) = read(&example()) else {
        panic!("cubes")
    };
    mesh.subdivide(false, 1).unwrap();
    let expected = "passes 1\n\
        v 0 40000000 00000000 00000000 00000000\n\
        v 1 40C00000 00000000 00000000 00000000\n\
        v 2 40800000 00000000 00000000 00000000\n\
        l 0 2 e\n\
        l 2 1 e\n";
    assert_eq!(listing(1, &mesh), expected);
}

/// A tetrahedron, a triangle, a point and two curves, with flags, tags and k.
#[test]
fn a_file_of_simplices() {
    let mut file = vec![1, 1, 0, 0, 0, 4];
    for i in 0..4 {
        file.extend([0x3f, 0x80, 0, i].into_iter().chain([0; 12]));
        file.extend([i, 0, 0, 1, i, 0xff, 0xff, 0xff, 0xff]);
    }
    file.extend([0, 0, 0, 1, 0, 0, 0, 3]);
    file.extend([0, 0, 0, 0]);
    file.extend([0, 0, 0, 1, 0, 0, 0, 0, 0, 0, 0, 1, 0, 0, 0, 2, 1]);
    file.extend([0, 0, 0, 1]);
    file.extend([0, 0, 0, 0, 0, 0, 0, 1, 0, 0, 0, 2, 0, 0, 0, 3, 0]);
    file.extend([0, 0, 0, 2]);
    file.extend([0, 0, 0, 7, 0, 0, 0, 1, 0, 0, 0, 2]);
    file.extend([0, 0, 0, 7, 0, 0, 0, 3, 0, 0, 0, 0, 0, 0, 0, 1]);
    file.extend([0, 0, 0, 3, 1, 0]);
    let mut expected = SimplicialGeometry::default();
    for i in 0..4 {
        expected.mk_vert(VertData {
            position: Vec4::new(f32::from_bits(0x3f80_0000 + i), 0., 0., 0.),
            boundary: [i & 1 == 1, i & 2 == 2, false, false],
            generator: 256 + i,
            k: u32::MAX,
        });
    }
    expected.mk_point(v([3])[0]);
    expected.mk_area(v([0, 1, 2]), Odd);
    expected.mk_volume(v([0, 1, 2, 3]), Even);
    expected.curves.push(curve(&[2], &[]));
    expected.curves.push(curve(&[0, 1, 3], &[Odd, Even]));
    assert_eq!(read(&file), Ok(Figure::Simplices(expected)));
}

/// A cube, two squares, a point and a curve.
#[test]
fn a_file_of_cubes() {
    let word = |number: u32| number.to_be_bytes();
    let mut file = [&[1, 0][..], &word(8)].concat();
    file.extend([0; 8 * 25]);
    file.extend([word(1), word(7), word(0), word(2)].concat());
    file.extend([0, 1, 2, 3].map(word).concat());
    file.push(1);
    file.extend([4, 5, 6, 7].map(word).concat());
    file.push(0);
    file.extend(word(1));
    file.extend([7, 6, 5, 4, 3, 2, 1, 0].map(word).concat());
    file.push(1);
    file.extend([word(1), word(7), word(2), word(6), word(5)].concat());
    file.push(1);
    let Ok(Figure::Cubes(mesh)) = read(&file) else {
        panic!("cubes")
    };
    assert_eq!((mesh.verts.len(), mesh.lines.len()), (8, 0));
    assert_eq!(mesh.points.into_raw(), v([7]));
    assert_eq!(
        mesh.areas.into_raw(),
        [(v([0, 1, 2, 3]), Odd), (v([4, 5, 6, 7]), Even)]
    );
    assert_eq!(
        mesh.volumes.into_raw(),
        [(v([7, 6, 5, 4, 3, 2, 1, 0]), Odd)]
    );
    assert_eq!(mesh.curves.into_raw(), [curve(&[6, 5], &[Odd])]);
}

/// The second byte alone says the kind: the example has no areas or volumes, and is a file of either.
#[test]
fn kinds() {
    for kind in 0..=255 {
        let mut file = example();
        file[1] = kind;
        match (kind, read(&file)) {
            (0, Ok(Figure::Cubes(mesh))) => assert_eq!(mesh.lines.len(), 1),
            (1, Ok(Figure::Simplices(mesh))) => assert_eq!(mesh.lines.len(), 1),
            (2.., Err(refusal)) => assert_eq!(refusal, Refusal::Kind),
            (_, read) => panic!("{kind}: {read:?}"),
        }
        // 1 comes before 2, and 2 before 3.
        assert_eq!(read(&[0, kind]), Err(Refusal::Version));
        if kind > 1 {
            assert_eq!(read(&[1, kind]), Err(Refusal::Kind));
        }
    }
}

#[test]
fn files_that_are_refused() {
    let changed = |at: usize, byte: u8| {
        let mut file = example();
        file[at] = byte;
        read(&file).unwrap_err()
    };
    assert_eq!(changed(0, 2), Refusal::Version);
    assert_eq!(changed(1, 2), Refusal::Kind);
    // A flag byte, and the line's parity.
    assert_eq!(changed(6 + 16, 16), Refusal::Byte);
    assert_eq!(changed(example().len() - 13, 2), Refusal::Byte);
    assert_eq!(changed(6, 0xff), Refusal::Coordinate);
    assert_eq!(changed(example().len() - 14, 2), Refusal::Vertex);
    let mut file = example();
    file.push(0);
    assert_eq!(read(&file), Err(Refusal::LeftOver));
    for length in [0, 1, 2, 5, 6, 40, 60, 84] {
        assert_eq!(read(&example()[..length]), Err(Refusal::EndsEarly));
    }
    let mut file = vec![1, 1];
    file.extend([0; 20]);
    file.extend([0, 0, 0, 1, 0, 0, 0, 7, 0, 0, 0, 0]);
    assert_eq!(read(&file), Err(Refusal::EmptyCurve));
}

/// A count that the file has no bytes for is 3 up to the limit, and 10 beyond it.
#[test]
fn counts_in_a_file() {
    // Each list's count behind empty lists, and the count of a curve's vertices.
    let lists = (0..6).map(|list| vec![0; 4 * list]);
    let curve = [&[0; 20][..], &[0, 0, 0, 1, 0, 0, 0, 7]].concat();
    for before in lists.chain([curve]) {
        for kind in [0, 1] {
            let counted = |count: u32| {
                let file = [&[1, kind], &before[..], &count.to_be_bytes()].concat();
                read(&file).unwrap_err()
            };
            assert_eq!(counted(1_048_576), Refusal::EndsEarly);
            assert_eq!(counted(1_048_577), Refusal::Full { passes: 0 });
            assert_eq!(counted(u32::MAX), Refusal::Full { passes: 0 });
        }
    }
}

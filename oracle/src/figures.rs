//! The example figures in examples/: they are what figure.py makes, they are read, and they are what they say.
use crate::{
    case::Case,
    draw::{needs, sizes},
    exports,
    ledger::check,
    program::printed,
    reading::{differs, Reading},
};
use reference::{
    file::decode,
    mesh::{Curve, Element, Kind, Mesh, Sizes, Vertex},
    sheet::{self, Sheet, CELLS},
};
use std::{fs, path::PathBuf, process::Command};

const FIGURES: [&str; 3] = ["tesseract", "torn", "trefoil"];

fn example(name: &str) -> PathBuf {
    let folder = concat!(env!("CARGO_MANIFEST_DIR"), "/../examples");
    PathBuf::from(folder).join(name)
}

fn file(name: &str) -> Vec<u8> {
    let path = example(name).with_extension("figure");
    fs::read(&path).unwrap_or_else(|error| panic!("{}: {error}", path.display()))
}

fn mesh(name: &str) -> Mesh {
    decode(&file(name), &Sizes::all(CELLS)).expect("an example is accepted")
}

#[test]
fn they_are_what_the_script_makes() {
    for name in FIGURES {
        let made = Command::new("python3")
            .args([example("figure.py").as_os_str(), name.as_ref()])
            .output()
            .expect("python3 runs");
        assert!(made.status.success(), "{made:?}");
        assert!(
            made.stdout == file(name),
            "make {name} again: python3 examples/figure.py {name} > examples/{name}.figure"
        );
    }
}

#[test]
fn they_are_read() {
    for name in FIGURES {
        let mesh = mesh(name);
        let reading = Reading::new(mesh.clone(), &mesh.sizes());
        assert_eq!(reading.written.bytes(), file(name));
        assert_eq!(differs(&reading, &exports::read), Ok(0), "{name}");
    }
}

/// Of the mesh and of what two passes leave of it.
#[test]
fn closed_and_torn_as_they_say() {
    for (name, cubes, open) in [("tesseract", 8, 0), ("torn", 7, 6)] {
        let mesh = mesh(name);
        let cells = needs(&mesh, 2, true)[2];
        let case = Case::new(mesh, &sizes(&cells), cells[7], 2, 1);
        let seen = check(&case).unwrap();
        assert_eq!((seen.volumes, seen.before.len()), (cubes, open), "{name}");
        // Each face that is open becomes four in a pass.
        assert_eq!(seen.after.len(), 16 * open, "{name}");
    }
}

/// A curve that ends where it began, each step of it along a line.
#[test]
fn the_knot_is_a_closed_curve() {
    let mesh = mesh("trefoil");
    let [curve] = &mesh.curves[..] else {
        panic!("one curve")
    };
    let along = curve.verts.windows(2).map(|step| Element {
        corners: step.to_vec(),
        parity: 0,
    });
    assert_eq!(along.collect::<Vec<_>>(), mesh.lines);
    assert_eq!((mesh.verts.len(), curve.verts.len()), (24, 25));
    assert_eq!(curve.verts.first(), curve.verts.last());
    let mut once = curve.verts[1..].to_vec();
    once.sort_unstable();
    assert_eq!(once, (0..24).collect::<Vec<u32>>());
}

#[test]
fn they_are_printed() {
    for name in FIGURES {
        for (depth, smooth_time) in [(0, false), (1, false), (2, true)] {
            let input = sheet::input(depth, smooth_time, &mesh(name));
            let listing = printed(&input).unwrap();
            assert!(listing.starts_with(&format!("passes {depth}\n")), "{name}");
            assert_eq!(listing, Sheet::Mesh.of(&input), "{name}");
        }
    }
}

/// What the C example prints of its cube is what the original gives.
#[test]
fn the_cube_of_the_c_example() {
    let corner = |i: u32| Vertex {
        bits: [0, 1, 2, 3].map(|axis| if i >> axis & 1 == 1 { 8_f32 } else { 0. }.to_bits()),
        flags: 0,
        tag: 0,
        k: 0,
    };
    let cube = Mesh {
        verts: (0..8).map(corner).collect(),
        points: vec![0],
        volumes: vec![Element {
            corners: (0..8).collect(),
            parity: 0,
        }],
        curves: vec![Curve {
            tag: 7,
            verts: vec![0, 1, 3],
            steps: vec![0; 3],
        }],
        ..Mesh::empty(Kind::Cubes)
    };
    let listing = Sheet::Mesh.of(&sheet::input(1, false, &cube));
    let stored = fs::read_to_string(example("refine_cube.txt")).expect("the example's text");
    assert_eq!(listing, stored);
}

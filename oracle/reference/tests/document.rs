//! The carried Rust against models written from document 01's sentences alone (sections 2 to 4 in `model`, 5 in `ledger`,
//! 7 in `gathered`, the rest here), on random meshes: every list, every bit, tags and k; then the ledger over what the carried Rust makes.
//! Of tag and k the model is told the carried rule here, the first end's: so it is seen that document 02's U3, which a model has otherwise,
//! is asked about the same ends in the same order, and that nothing but the rule differs.

mod common;

use reference::{
    gathered::{sums_3d, sums_4d},
    ledger::{ledger, refined},
    memory::{normals_3d, normals_4d, subdivided, triangulated, Normal},
    mesh::{Element, Kind, Mesh},
    model::{Model, Strand},
    random::{self, Bounds, Rng},
};

/// Section 2: "tag and k of the first end".
const FIRST_END: Strand = |first, _| [first.tag, first.k];

/// Section 6.
fn cut(mesh: &Mesh) -> Mesh {
    fn pieces<const N: usize>(list: &[Element], table: &[([usize; N], u32)]) -> Vec<Element> {
        let mut out = vec![];
        for e in list {
            for (piece, parity) in table {
                let corners: Vec<u32> = piece.iter().map(|i| e.corners[*i]).collect();
                if corners.windows(2).all(|pair| pair[0] != pair[1]) {
                    out.push(Element {
                        corners,
                        parity: u32::from(e.parity != *parity),
                    });
                }
            }
        }
        out
    }

    let mut out = mesh.clone();
    out.kind = Kind::Simplices;
    out.areas = pieces(&mesh.areas, &[([0, 1, 3], 0), ([0, 2, 3], 1)]);
    out.volumes = pieces(
        &mesh.volumes,
        &[
            ([0, 1, 3, 7], 0),
            ([0, 1, 5, 7], 1),
            ([0, 2, 3, 7], 1),
            ([0, 2, 6, 7], 0),
            ([0, 4, 5, 7], 0),
            ([0, 4, 6, 7], 1),
        ],
    );
    out
}

/// Flat exactly where dot rounds to 0.
fn normalised<const N: usize>(v: [f32; N]) -> Normal<N> {
    let mut dot = v[0] * v[0] + v[1] * v[1];
    for c in &v[2..] {
        dot += c * c;
    }
    if dot == 0. {
        return Normal::Flat;
    }
    let r = 1. / dot.sqrt();
    Normal::Direction(v.map(|c| (c * r).to_bits()))
}

fn shaded<const N: usize>(sums: Vec<[f32; N]>) -> Vec<Normal<N>> {
    sums.into_iter().map(normalised).collect()
}

fn compare(kind: Kind, seeds: std::ops::Range<u64>, bounds: &Bounds) {
    let (mut closed, mut flat, mut directed) = (0, 0, 0);
    for seed in seeds {
        let mut rng = Rng::new(seed);
        let mesh = random::mesh(&mut rng, kind, bounds);
        let smooth_time = rng.once_in(2);
        let depth = rng.below(bounds.depth + 1) as u8;

        let mut model = Model::by(&mesh, FIRST_END);
        let mut faces = ledger(&mesh);
        for _ in 0..depth {
            model.pass(smooth_time);
            faces = refined(&faces, &model);
        }
        let after = subdivided(&mesh, depth, smooth_time);
        assert_eq!(after, model.mesh, "seed {seed}");
        let left = ledger(&after);
        assert_eq!(left, faces, "seed {seed}");
        closed += u32::from(left.is_empty() && !after.volumes.is_empty());
        if kind == Kind::Simplices {
            assert_eq!(left.is_empty(), ledger(&mesh).is_empty(), "seed {seed}");
        }

        let simplices = match kind {
            Kind::Cubes => {
                assert_eq!(triangulated(&after), cut(&after), "seed {seed}");
                cut(&after)
            }
            Kind::Simplices => after,
        };
        let (three, four) = (normals_3d(&simplices), normals_4d(&simplices));
        assert_eq!(three, shaded(sums_3d(&simplices)), "seed {seed}");
        assert_eq!(four, shaded(sums_4d(&simplices)), "seed {seed}");
        flat += four.iter().filter(|n| **n == Normal::Flat).count();
        directed += four.iter().filter(|n| **n != Normal::Flat).count();
    }
    // The meshes are such that each of these is met.
    assert!(
        closed > 0 && flat > 0 && directed > 0,
        "{closed} {flat} {directed}"
    );
}

/// How many meshes; `MESHES=100000 cargo test --release --offline --test document` for more.
fn meshes() -> u64 {
    std::env::var("MESHES").map_or(3000, |count| count.parse().unwrap())
}

#[test]
fn cubes_are_as_document_01_says() {
    compare(Kind::Cubes, 0..meshes(), &Bounds::default());
}

#[test]
fn simplices_are_as_document_01_says() {
    compare(Kind::Simplices, 0..meshes(), &Bounds::default());
}

/// Few vertices, so that corners often fall together, and deeper.
#[test]
fn crowded_meshes_are_as_document_01_says() {
    let bounds = Bounds {
        verts: 4,
        elements: 2,
        depth: 4,
        damaged: 0,
    };
    compare(Kind::Cubes, 10_000..11_000, &bounds);
    compare(Kind::Simplices, 10_000..11_000, &bounds);
}

/// Every line, square and cube over few vertices, every triangle and tetrahedron, alone, at every depth up to 3 (cubes
/// over three vertices up to 2), with the ledger.
#[test]
fn every_small_element_is_as_document_01_says() {
    type List = fn(&mut Mesh) -> &mut Vec<Element>;
    let cases: [(Kind, usize, u32, u8, List); 7] = [
        (Kind::Cubes, 2, 2, 3, |m| &mut m.lines),
        (Kind::Cubes, 4, 4, 3, |m| &mut m.areas),
        (Kind::Cubes, 8, 2, 3, |m| &mut m.volumes),
        (Kind::Cubes, 8, 3, 2, |m| &mut m.volumes),
        (Kind::Simplices, 2, 2, 3, |m| &mut m.lines),
        (Kind::Simplices, 3, 3, 3, |m| &mut m.areas),
        (Kind::Simplices, 4, 4, 3, |m| &mut m.volumes),
    ];
    for (kind, corners, below, depth, list) in cases {
        for code in 0..below.pow(corners as u32) {
            let element = Element {
                corners: (0..corners as u32)
                    .map(|i| code / below.pow(i) % below)
                    .collect(),
                parity: code % 2,
            };
            let mut mesh = common::with_verts(kind, below as usize);
            list(&mut mesh).push(element.clone());
            let (mut model, mut faces) = (Model::by(&mesh, FIRST_END), ledger(&mesh));
            for pass in 1..=depth {
                model.pass(true);
                faces = refined(&faces, &model);
                let after = subdivided(&mesh, pass, true);
                assert_eq!(after, model.mesh, "{kind:?} {element:?}, pass {pass}");
                assert_eq!(ledger(&after), faces, "{kind:?} {element:?}, pass {pass}");
            }
        }
    }
}

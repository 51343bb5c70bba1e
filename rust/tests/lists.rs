//! Each list by itself and all others empty, refined, cut and given normals; and no list at all, through every entry.
mod common;

use aljumeste::{
    geom::{CubeData, ElementData, Geometry, SimplexData},
    read, CubicalGeometry, Figure, SimplicialGeometry,
};
use common::{cubes, curve, simplices, v, Odd};

/// Points, lines, areas, volumes, and the vertices of curves.
fn sizes<E: ElementData>(mesh: &Geometry<E>) -> [usize; 5] {
    let steps = mesh.curves.values().map(|curve| curve.verts.len()).sum();
    [
        mesh.points.len(),
        mesh.lines.len(),
        mesh.areas.len(),
        mesh.volumes.len(),
        steps,
    ]
}

/// The sizes after one pass and after two, of one entry in a list; a curve of two vertices.
const REFINED: [[usize; 3]; 5] = [[1, 1, 1], [1, 2, 4], [1, 4, 16], [1, 8, 64], [2, 3, 5]];

fn expected(list: usize, depth: usize) -> [usize; 5] {
    let mut sizes = [0; 5];
    sizes[list] = REFINED[list][depth];
    sizes
}

#[test]
fn one_list_of_simplices() {
    let makes: [fn(&mut SimplicialGeometry); 5] = [
        |mesh| _ = mesh.mk_point(v([3])[0]),
        |mesh| _ = mesh.mk_line(v([0, 1]), Odd),
        |mesh| _ = mesh.mk_area(v([0, 1, 2]), Odd),
        |mesh| _ = mesh.mk_volume(v([0, 1, 2, 3]), Odd),
        |mesh| _ = mesh.curves.push(curve(&[0, 1], &[Odd])),
    ];
    for (list, make) in makes.into_iter().enumerate() {
        let mut mesh = simplices(4);
        make(&mut mesh);
        for depth in 0..3 {
            let mut refined = mesh.clone();
            refined.subdivide(true, depth).unwrap();
            assert_eq!(sizes(&refined), expected(list, depth.into()));
            let count = refined.verts.len();
            assert_eq!(refined.compute_normals_3d().unwrap().len(), count);
            assert_eq!(refined.compute_normals_4d().unwrap().len(), count);
        }
    }
}

#[test]
fn one_list_of_cubes() {
    let makes: [fn(&mut CubicalGeometry); 5] = [
        |mesh| _ = mesh.mk_point(v([7])[0]),
        |mesh| _ = mesh.mk_line(v([0, 1]), Odd),
        |mesh| _ = mesh.mk_area(v([0, 1, 2, 3]), Odd),
        |mesh| _ = mesh.mk_volume(v([0, 1, 2, 3, 4, 5, 6, 7]), Odd),
        |mesh| _ = mesh.curves.push(curve(&[0, 1], &[Odd])),
    ];
    for (list, make) in makes.into_iter().enumerate() {
        let mut mesh = cubes(8);
        make(&mut mesh);
        for depth in 0..3 {
            let mut refined = mesh.clone();
            refined.subdivide(true, depth).unwrap();
            let mut expected = expected(list, depth.into());
            assert_eq!(sizes(&refined), expected);
            let cut = SimplicialGeometry::from(refined);
            expected[2] *= 2;
            expected[3] *= 6;
            assert_eq!(sizes(&cut), expected);
        }
    }
}

#[test]
fn nothing_at_all() {
    let mut simplicial = Geometry::<SimplexData>::default();
    let mut cubical = Geometry::<CubeData>::default();
    for depth in [0, 1, 2, 255] {
        assert_eq!(simplicial.subdivide(true, depth), Ok(()));
        assert_eq!(cubical.subdivide(true, depth), Ok(()));
    }
    assert_eq!(simplicial, SimplicialGeometry::default());
    assert_eq!(cubical, CubicalGeometry::default());
    assert!(simplicial.compute_normals_3d().unwrap().is_empty());
    assert!(simplicial.compute_normals_4d().unwrap().is_empty());
    assert_eq!(cubical.triangulated(), Ok(simplicial.clone()));

    let file = |kind| [vec![1, kind], vec![0; 24]].concat();
    assert_eq!(read(&file(0)), Ok(Figure::Cubes(cubical)));
    assert_eq!(read(&file(1)), Ok(Figure::Simplices(simplicial)));
}

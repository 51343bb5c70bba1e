//! Measured meshes. A closed block of cubes, or of tetrahedra: n cubes along x, y and z, all edges as lines, the outer faces as areas. A
//! sheet of triangles.
use reference::{
    memory::triangulated,
    mesh::{Element, Kind, Mesh, Vertex},
};

/// The block of a kind; tetrahedra are the cubes cut as document 01's section 6 cuts them.
pub fn block(kind: Kind, n: u32) -> Mesh {
    let cubes = cubes(n);
    match kind {
        Kind::Cubes => cubes,
        Kind::Simplices => triangulated(&cubes),
    }
}

fn cubes(n: u32) -> Mesh {
    Mesh {
        verts: places(n, [1; 3]).map(|at| vertex(at, n)).collect(),
        lines: edges(n),
        areas: faces(n),
        volumes: places(n, [0; 3])
            .map(|at| box_at(n, at, &[0, 1, 2]))
            .collect(),
        ..Mesh::empty(Kind::Cubes)
    }
}

/// A sheet of triangles over uneven ground: n squares along x and y, each cut in two as section 6 cuts it.
pub fn sheet(n: u32) -> Mesh {
    let flat = |count: u32| (0..count).flat_map(move |y| (0..count).map(move |x| [x, y]));
    triangulated(&Mesh {
        verts: flat(n + 1)
            .map(|[x, y]| vertex([x, y, x * y % 7], n))
            .collect(),
        areas: flat(n)
            .map(|[x, y]| box_at(n, [x, y, 0], &[0, 1]))
            .collect(),
        ..Mesh::empty(Kind::Cubes)
    })
}

/// All places of the grid, x first; an axis has n of them, and `more`.
fn places(n: u32, more: [u32; 3]) -> impl Iterator<Item = [u32; 3]> {
    let [xs, ys, zs] = more.map(|m| n + m);
    (0..zs).flat_map(move |z| (0..ys).flat_map(move |y| (0..xs).map(move |x| [x, y, z])))
}

/// A vertex of the hull keeps its place along the axis that leads out of it.
fn vertex(at: [u32; 3], n: u32) -> Vertex {
    let [x, y, z] = at.map(|c| (c as f32).to_bits());
    let flag = |axis: usize| u32::from(at[axis] == 0 || at[axis] == n) << axis;
    Vertex {
        bits: [x, y, z, 0],
        flags: flag(0) | flag(1) | flag(2),
        tag: 0,
        k: 0,
    }
}

/// A line, square or cube from a place along one, two or three axes, its corners in document 01's order.
fn box_at(n: u32, at: [u32; 3], axes: &[usize]) -> Element {
    let corner = |c: usize| {
        let mut at = at;
        for (bit, axis) in axes.iter().enumerate() {
            at[*axis] += (c >> bit & 1) as u32;
        }
        at[0] + (n + 1) * (at[1] + (n + 1) * at[2])
    };
    Element {
        corners: (0..1 << axes.len()).map(corner).collect(),
        parity: 0,
    }
}

fn edges(n: u32) -> Vec<Element> {
    let along = |axis: usize| {
        let mut more = [1; 3];
        more[axis] = 0;
        places(n, more).map(move |at| box_at(n, at, &[axis]))
    };
    (0..3).flat_map(along).collect()
}

fn faces(n: u32) -> Vec<Element> {
    let across = |axis: usize| {
        let axes: Vec<usize> = (0..3).filter(|a| *a != axis).collect();
        let mut more = [0; 3];
        more[axis] = 1;
        places(n, more)
            .filter(move |at| at[axis] == 0 || at[axis] == n)
            .map(move |at| box_at(n, at, &axes))
    };
    (0..3).flat_map(across).collect()
}

#[cfg(test)]
mod tests {
    use super::*;
    use reference::memory::{judge_mesh, normals_3d, Normal};

    /// Counts worked out by hand for two cubes along each axis: 27 vertices, 3·2·9 edges, 6·4 outer faces, 8 cubes; a square is cut
    /// into 2 triangles, a cube into 6 tetrahedra.
    #[test]
    fn the_block_of_two() {
        for (kind, areas, volumes) in [(Kind::Cubes, 24, 8), (Kind::Simplices, 48, 48)] {
            let mesh = block(kind, 2);
            let sizes = mesh.sizes();
            assert_eq!((sizes.verts, sizes.lines), (27, 54));
            assert_eq!((sizes.areas, sizes.volumes), (areas, volumes));
            assert_eq!(judge_mesh(&mesh), None);
        }
    }

    /// 9 vertices, and 2 triangles for each of 4 squares; every vertex has a normal, since no triangle looks down.
    #[test]
    fn the_sheet_of_two() {
        let mesh = sheet(2);
        assert_eq!((mesh.verts.len(), mesh.areas.len()), (9, 8));
        assert_eq!(judge_mesh(&mesh), None);
        assert!(!normals_3d(&mesh).contains(&Normal::Flat));
    }
}

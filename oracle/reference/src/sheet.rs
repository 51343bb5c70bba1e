//! The program `sheet` of document 01, section 8, as a function from input bytes to output, and the same input taken
//! on to triangulation and normals, asked for its tags, or with every parity changed.

use crate::{
    file,
    ledger::{self, ledger, replaced},
    listing,
    memory::{normals_3d, normals_4d, refine_within, triangulated, Ended},
    mesh::{Kind, Lent, Mesh},
};

/// "It lends 1,024 cells to each list and to the book".
pub const CELLS: usize = 1024;
/// "before all else refuses by 10 an input of more than 65,536 bytes".
pub const MOST_BYTES: usize = 65_536;

/// What is printed of a refined input.
#[derive(Copy, Clone, Debug, PartialEq, Eq)]
pub enum Sheet {
    Mesh,
    Strands,
    Triangulated,
    Replaced,
    Normals3,
    Normals4,
    Turned,
    Turned3,
    Turned4,
}

impl Sheet {
    /// The word that asks for it.
    #[must_use]
    pub fn named(word: &str) -> Option<Self> {
        match word {
            "sheet" => Some(Self::Mesh),
            "strands" => Some(Self::Strands),
            "triangulate" => Some(Self::Triangulated),
            "replaced" => Some(Self::Replaced),
            "normals3" => Some(Self::Normals3),
            "normals4" => Some(Self::Normals4),
            "turned" => Some(Self::Turned),
            "turned3" => Some(Self::Turned3),
            "turned4" => Some(Self::Turned4),
            _ => None,
        }
    }

    /// The output for one input. Triangulation and normals are those of the refined mesh (depth 0: of the file's
    /// mesh); cubes are cut into simplices before their normals are worked out, and a mesh of simplices has no
    /// triangulation, which says `not cubes`. What is cut is lent the limit, so that no refusal comes from it. Document
    /// 02's U5 changes every parity of the refined mesh.
    #[must_use]
    pub fn of(self, input: &[u8]) -> String {
        let (passes, mesh) = match refined(input) {
            Ok(refined) => refined,
            Err((number, passes)) => return listing::refusal(number, passes),
        };
        match (self, mesh.kind) {
            (Self::Mesh, _) => listing::mesh(passes, &mesh),
            (Self::Strands, _) => strands(&mesh),
            (Self::Triangulated, Kind::Cubes) => listing::mesh(passes, &triangulated(&mesh)),
            (Self::Replaced, Kind::Cubes) => triangles(&mesh),
            (Self::Triangulated | Self::Replaced, Kind::Simplices) => "not cubes\n".to_string(),
            (Self::Normals3, _) => listing::normals(passes, &normals_3d(&simplices(mesh))),
            (Self::Normals4, _) => listing::normals(passes, &normals_4d(&simplices(mesh))),
            (Self::Turned, _) => listing::mesh(passes, &mesh.turned()),
            (Self::Turned3, _) => listing::normals(passes, &normals_3d(&simplices(mesh.turned()))),
            (Self::Turned4, _) => listing::normals(passes, &normals_4d(&simplices(mesh.turned()))),
        }
    }
}

/// Document 02's U3: number, tag and k of each vertex, a line each.
fn strands(mesh: &Mesh) -> String {
    let lines = mesh.verts.iter().enumerate();
    lines
        .map(|(i, v)| format!("m {i} {} {}\n", v.tag, v.k))
        .collect()
}

/// Document 02's U8: the ledger of cubes with each square replaced by triangles. An entry a line, with its number as it is read.
fn triangles(mesh: &Mesh) -> String {
    let entries = replaced(&ledger(mesh));
    let seen = ledger::read(&entries);
    let line = |t: &Vec<u32>| {
        let number = seen.get(t).copied().unwrap_or(0);
        format!("f {} {} {} {number}\n", t[0], t[1], t[2])
    };
    entries.keys().map(line).collect()
}

fn simplices(mesh: Mesh) -> Mesh {
    match mesh.kind {
        Kind::Cubes => triangulated(&mesh),
        Kind::Simplices => mesh,
    }
}

/// Depth, smooth_time and the file's mesh, or the number of the refusal.
pub fn read(input: &[u8]) -> Result<(u8, bool, Mesh), u8> {
    if input.len() > MOST_BYTES {
        return Err(10);
    }
    let depth = *input.first().ok_or(3)?;
    let smooth_time = match *input.get(1).ok_or(3)? {
        0 => false,
        1 => true,
        _ => return Err(5),
    };
    let mesh = file::decode(&input[2..], &Lent::all(CELLS).lists)?;
    Ok((depth, smooth_time, mesh))
}

/// The passes and the refined mesh, or the refusal and the passes before it.
pub fn refined(input: &[u8]) -> Result<(usize, Mesh), (u8, usize)> {
    let (depth, smooth_time, mesh) = read(input).map_err(|number| (number, 0))?;
    let refined = refine_within(&mesh, &Lent::all(CELLS), depth, smooth_time);
    match refined.ended {
        Ended::Finished => Ok((refined.passes, refined.mesh)),
        Ended::Refused(number) => Err((number, refined.passes)),
    }
}

/// The input of `sheet` for a mesh.
#[must_use]
pub fn input(depth: u8, smooth_time: bool, mesh: &Mesh) -> Vec<u8> {
    let mut bytes = vec![depth, u8::from(smooth_time)];
    bytes.extend(file::encode(mesh));
    bytes
}

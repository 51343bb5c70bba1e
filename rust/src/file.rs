//! Reading a file of document 01, section 8.
use crate::{
    geom::{CubicalGeometry, ElementData, Geometry, SimplicialGeometry, Vert},
    lending::{Kind, CUBES, SIMPLICES},
    raw::Sizes,
    Refusal, LIMIT,
};

/// What a file holds: its kind byte says which.
#[derive(Clone, Debug, PartialEq)]
pub enum Figure {
    /// Kind 0.
    Cubes(CubicalGeometry),
    /// Kind 1.
    Simplices(SimplicialGeometry),
}

/// Reads a whole file.
///
/// ```
/// // Version 1, simplices, and six counts of 0.
/// let mut file = vec![1, 1];
/// file.extend([0; 24]);
/// assert!(matches!(aljumeste::read(&file), Ok(aljumeste::Figure::Simplices(_))));
/// assert_eq!(aljumeste::read(&file[..25]).unwrap_err().number(), 3);
/// ```
///
/// # Errors
/// 1 to 8, and 10 where a count is over the limit.
pub fn read(file: &[u8]) -> Result<Figure, Refusal> {
    // A file that says neither kind is refused, whatever is lent.
    Ok(match file.get(1) {
        Some(1) => Figure::Simplices(read_kind(&SIMPLICES, file)?),
        _ => Figure::Cubes(read_kind(&CUBES, file)?),
    })
}

fn read_kind<const A: usize, const V: usize, E>(
    kind: &Kind<A, V>,
    file: &[u8],
) -> Result<Geometry<E>, Refusal>
where
    E: ElementData<Point = Vert, Line = [Vert; 2], Area = [Vert; A], Volume = [Vert; V]>,
{
    let mut cells = stated(file, 4 * A + 1, 4 * V + 1);
    match Geometry::read(kind, file, &cells) {
        // A curve that states more vertices than the file has bytes for may still be below the limit, where 10 is not due: judged again.
        Err(Refusal::Full { .. }) => {
            cells[6] = LIMIT;
            Geometry::read(kind, file, &cells)
        }
        read => read,
    }
}

/// The entries that a file states, up to the limit, and as many vertices of curves as it has bytes for. An area and a volume have so many
/// bytes. Behind a list that lacks bytes nothing is read, so nothing is lent.
fn stated(file: &[u8], area: usize, volume: usize) -> Sizes {
    let mut rest = file.get(2..).unwrap_or_default();
    let mut count = |bytes: usize| {
        let Some((count, rows)) = rest.split_first_chunk() else {
            return 0;
        };
        let count = u32::from_be_bytes(*count) as usize;
        rest = rows.get(count * bytes..).unwrap_or_default();
        count
    };
    let [verts, points, lines, areas, volumes] = [25, 4, 9, area, volume].map(&mut count);
    // A curve has 7 bytes, and 5 for each of its vertices.
    let curves = count(7);
    let sizes = [verts, points, lines, areas, volumes, curves, rest.len() / 5];
    sizes.map(|size| size.min(LIMIT))
}

#[cfg(test)]
mod tests {
    use super::*;

    /// As many cells as entries: a vertex, two points, a line, a square, no cube, and two curves of three vertices in all.
    #[test]
    fn cells_for_what_is_stated() {
        let mut file = vec![1, 0];
        let lists = [(1, 25), (2, 8), (1, 9), (1, 17), (0, 0), (2, 14 + 15)];
        for (count, bytes) in lists {
            file.extend([0, 0, 0, count]);
            file.extend(vec![0; bytes]);
        }
        assert_eq!(stated(&file, 17, 33), [1, 2, 1, 1, 0, 2, 3]);
        // The last list has fewer bytes than it states, then the first.
        file.truncate(file.len() - 20);
        assert_eq!(stated(&file, 17, 33), [1, 2, 1, 1, 0, 2, 0]);
        file.truncate(20);
        assert_eq!(stated(&file, 17, 33), [1, 0, 0, 0, 0, 0, 0]);
        // More than the limit, and nothing.
        file[2] = 255;
        assert_eq!(stated(&file, 17, 33), [LIMIT, 0, 0, 0, 0, 0, 0]);
        assert_eq!(stated(&[], 17, 33), [0; 7]);
    }
}

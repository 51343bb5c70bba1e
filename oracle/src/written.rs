//! A file of document 01's section 8: the bytes of an accepted mesh, field by field, and what is then done to them.
use crate::{draw::LISTS, shrink::Shrink};
use reference::{
    file::encode,
    mesh::{Element, Mesh},
};
use std::fmt;

/// What a field is. A list goes by its number among `LISTS`.
#[derive(Copy, Clone, Debug, PartialEq, Eq)]
pub enum Field {
    Version,
    Kind,
    Count(usize),
    Coordinate(usize),
    Flags,
    Tag,
    K,
    Point,
    Corner(usize),
    Parity(usize),
    CurveTag,
    Length,
    CurveVertex,
    Step,
    /// Behind the last field, where nothing may be left over.
    End,
}

impl fmt::Display for Field {
    fn fmt(&self, f: &mut fmt::Formatter) -> fmt::Result {
        match *self {
            Field::Count(list) => write!(f, "the count of {}", LISTS[list]),
            Field::Coordinate(axis) => write!(f, "{}", ["x", "y", "z", "w"][axis]),
            Field::Corner(list) => write!(f, "a corner of {}", LISTS[list]),
            Field::Parity(list) => write!(f, "a parity of {}", LISTS[list]),
            Field::CurveTag => write!(f, "a curve's tag"),
            Field::Length => write!(f, "a curve's length"),
            Field::CurveVertex => write!(f, "a curve's vertex"),
            Field::Step => write!(f, "a curve's step"),
            field => write!(f, "{}", format!("{field:?}").to_lowercase()),
        }
    }
}

/// A field and the bytes it has, from which place on.
#[derive(Copy, Clone, Debug)]
pub struct Place {
    pub field: Field,
    pub at: usize,
    pub length: usize,
}

/// The fields of a mesh's file in order, the end too.
pub fn places(mesh: &Mesh) -> Vec<Place> {
    let mut walk = Walk::default();
    walk.byte(Field::Version);
    walk.byte(Field::Kind);
    walk.word(Field::Count(0));
    for _ in &mesh.verts {
        (0..4).for_each(|axis| walk.word(Field::Coordinate(axis)));
        walk.byte(Field::Flags);
        walk.word(Field::Tag);
        walk.word(Field::K);
    }
    walk.word(Field::Count(1));
    mesh.points.iter().for_each(|_| walk.word(Field::Point));
    walk.elements(2, &mesh.lines);
    walk.elements(3, &mesh.areas);
    walk.elements(4, &mesh.volumes);
    walk.word(Field::Count(5));
    for curve in &mesh.curves {
        walk.word(Field::CurveTag);
        walk.word(Field::Length);
        let steps = curve.verts.len() - 1;
        (0..=steps).for_each(|_| walk.word(Field::CurveVertex));
        (0..steps).for_each(|_| walk.byte(Field::Step));
    }
    walk.field(Field::End, 0);
    walk.places
}

#[derive(Default)]
struct Walk {
    places: Vec<Place>,
    at: usize,
}

impl Walk {
    fn field(&mut self, field: Field, length: usize) {
        let at = self.at;
        self.places.push(Place { field, at, length });
        self.at += length;
    }

    fn byte(&mut self, field: Field) {
        self.field(field, 1);
    }

    fn word(&mut self, field: Field) {
        self.field(field, 4);
    }

    fn elements(&mut self, list: usize, elements: &[Element]) {
        self.word(Field::Count(list));
        for element in elements {
            let corners = element.corners.iter();
            corners.for_each(|_| self.word(Field::Corner(list)));
            self.byte(Field::Parity(list));
        }
    }
}

/// One thing done to a file's bytes.
#[derive(Clone, Debug)]
pub enum Edit {
    /// Other bytes from a place on.
    Put(usize, Vec<u8>),
    /// More bytes behind.
    More(Vec<u8>),
    /// Nothing from a place on.
    Cut(usize),
}

#[derive(Clone, Debug)]
pub struct Written {
    pub mesh: Mesh,
    pub edits: Vec<Edit>,
}

impl Written {
    /// As it is handed in: other bytes put in their places, then more behind, then what is cut off.
    pub fn bytes(&self) -> Vec<u8> {
        let mut file = encode(&self.mesh);
        let (mut more, mut length) = (Vec::<u8>::new(), usize::MAX);
        for edit in &self.edits {
            match edit {
                Edit::Put(at, bytes) => {
                    let places = file.iter_mut().skip(*at);
                    places.zip(bytes).for_each(|(place, byte)| *place = *byte);
                }
                Edit::More(bytes) => more.extend(bytes),
                Edit::Cut(at) => length = length.min(*at),
            }
        }
        file.extend(more);
        file.truncate(length);
        file
    }
}

/// On a smaller mesh, where what is done to the bytes is done at the same place, counted from the start or from the end; or without one
/// of those things.
impl Shrink for Written {
    fn smaller(&self) -> Vec<Written> {
        let mut found = vec![];
        for i in 0..self.edits.len() {
            let mut next = self.clone();
            next.edits.remove(i);
            found.push(next);
        }
        let length = encode(&self.mesh).len();
        for mesh in self.mesh.smaller() {
            let shorter = length - encode(&mesh).len();
            let moved = |edit: &Edit| match edit {
                Edit::Put(at, bytes) => Edit::Put(at.saturating_sub(shorter), bytes.clone()),
                Edit::Cut(at) => Edit::Cut(at.saturating_sub(shorter)),
                Edit::More(bytes) => Edit::More(bytes.clone()),
            };
            if shorter > 0 && !self.edits.is_empty() {
                found.push(Written {
                    mesh: mesh.clone(),
                    edits: self.edits.iter().map(moved).collect(),
                });
            }
            found.push(Written {
                mesh,
                edits: self.edits.clone(),
            });
        }
        found
    }
}

/// The bytes in hexadecimal, a field of the mesh's own file to a word.
impl fmt::Display for Written {
    fn fmt(&self, f: &mut fmt::Formatter) -> fmt::Result {
        let (file, places) = (self.bytes(), places(&self.mesh));
        let starts: Vec<usize> = places.iter().map(|place| place.at).collect();
        write!(f, "file")?;
        for (at, byte) in file.iter().enumerate() {
            let space = if starts.contains(&at) { " " } else { "" };
            write!(f, "{space}{byte:02X}")?;
        }
        writeln!(f)?;
        self.edits
            .iter()
            .try_for_each(|edit| writeln!(f, "done to the mesh's own: {edit:X?}"))
    }
}

#[cfg(test)]
mod tests {
    use super::*;
    use crate::KINDS;
    use reference::random::{self, Bounds, Rng};

    /// The fields follow each other without a gap, and the end stands behind the last byte.
    #[test]
    fn fields_cover_the_file() {
        let mut rng = Rng::new(1);
        for i in 0..1_000 {
            let mesh = random::mesh(&mut rng, KINDS[i % 2], &Bounds::default());
            let mut at = 0;
            for place in places(&mesh) {
                assert_eq!(place.at, at);
                at += place.length;
            }
            assert_eq!(at, encode(&mesh).len());
        }
    }
}

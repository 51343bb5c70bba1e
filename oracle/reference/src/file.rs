//! The file of document 01, section 8: written from a mesh, and any bytes judged field by field.
//!
//! "For a file 9 comes first; then it is judged field by field, each count against 10 before its entries, a curve's
//! vertex count of 0 by 8; 4 last." A field is read whole, then judged, before the next is read.

use crate::{
    memory::{coordinate_is_accepted, Bench},
    mesh::{Curve, Element, Kind, Mesh, Sizes, Vertex, LIMIT},
};

/// The bytes of a mesh. Flags and parities are cut to a byte: those of a mesh with larger words come out otherwise.
#[must_use]
pub fn encode(mesh: &Mesh) -> Vec<u8> {
    let mut out = vec![1, mesh.kind.byte()];
    let word = |out: &mut Vec<u8>, w: u32| out.extend(w.to_be_bytes());
    let count = |out: &mut Vec<u8>, n: usize| out.extend((n as u32).to_be_bytes());

    count(&mut out, mesh.verts.len());
    for v in &mesh.verts {
        v.bits.iter().for_each(|b| word(&mut out, *b));
        out.push(v.flags as u8);
        word(&mut out, v.tag);
        word(&mut out, v.k);
    }
    count(&mut out, mesh.points.len());
    mesh.points.iter().for_each(|p| word(&mut out, *p));
    for list in [&mesh.lines, &mesh.areas, &mesh.volumes] {
        count(&mut out, list.len());
        for e in list {
            e.corners.iter().for_each(|c| word(&mut out, *c));
            out.push(e.parity as u8);
        }
    }
    count(&mut out, mesh.curves.len());
    for c in &mesh.curves {
        word(&mut out, c.tag);
        count(&mut out, c.verts.len());
        c.verts.iter().for_each(|v| word(&mut out, *v));
        let steps = &c.steps[..c.verts.len().saturating_sub(1)];
        out.extend(steps.iter().map(|s| *s as u8));
    }
    out
}

/// The mesh of a file, or the number of the refusal, for two benches: "For a file 9 comes first". A file that says no kind is refused for
/// that, whatever the cells.
pub fn decode_onto(bytes: &[u8], first: &Bench, second: &Bench) -> Result<Mesh, u8> {
    if first.lengths() != second.lengths() {
        return Err(9);
    }
    let kind = match bytes.get(1) {
        Some(1) => Kind::Simplices,
        _ => Kind::Cubes,
    };
    decode(bytes, &first.cells(kind))
}

/// The mesh of a file, or the number of the refusal, for cells lent equally on both benches.
pub fn decode(bytes: &[u8], lent: &Sizes) -> Result<Mesh, u8> {
    let mut file = Reader { bytes, at: 0 };

    if file.byte()? != 1 {
        return Err(1);
    }
    let kind = match file.byte()? {
        0 => Kind::Cubes,
        1 => Kind::Simplices,
        _ => return Err(2),
    };
    let mut mesh = Mesh::empty(kind);
    let [line, area, volume] = kind.corners();

    for _ in 0..file.count(lent.verts)? {
        mesh.verts.push(file.vertex()?);
    }
    let below = mesh.verts.len();
    for _ in 0..file.count(lent.points)? {
        mesh.points.push(file.vertex_number(below)?);
    }
    mesh.lines = file.elements(lent.lines, line, below)?;
    mesh.areas = file.elements(lent.areas, area, below)?;
    mesh.volumes = file.elements(lent.volumes, volume, below)?;

    let mut room = lent.curve_verts.min(LIMIT);
    for _ in 0..file.count(lent.curves)? {
        let tag = file.word()?;
        let length = file.word()? as usize;
        if length == 0 {
            return Err(8);
        }
        if length > room {
            return Err(10);
        }
        room -= length;
        let verts: Vec<u32> = file.times(length, |f| f.vertex_number(below))?;
        let mut steps = file.times(length - 1, Reader::parity)?;
        steps.push(0);
        mesh.curves.push(Curve { tag, verts, steps });
    }

    if file.at < bytes.len() {
        return Err(4);
    }
    Ok(mesh)
}

/// Over one file, walking it field by field. A field of which a byte is missing is 3.
struct Reader<'a> {
    bytes: &'a [u8],
    at: usize,
}

impl Reader<'_> {
    fn byte(&mut self) -> Result<u8, u8> {
        let byte = *self.bytes.get(self.at).ok_or(3)?;
        self.at += 1;
        Ok(byte)
    }

    fn word(&mut self) -> Result<u32, u8> {
        let bytes = self.bytes.get(self.at..self.at + 4).ok_or(3)?;
        self.at += 4;
        Ok(u32::from_be_bytes(bytes.try_into().unwrap()))
    }

    fn times<T>(
        &mut self,
        n: usize,
        mut field: impl FnMut(&mut Self) -> Result<T, u8>,
    ) -> Result<Vec<T>, u8> {
        let mut list = vec![];
        for _ in 0..n {
            list.push(field(self)?);
        }
        Ok(list)
    }

    fn count(&mut self, lent: usize) -> Result<usize, u8> {
        let count = self.word()? as usize;
        if count > lent || count > LIMIT {
            return Err(10);
        }
        Ok(count)
    }

    fn coordinate(&mut self) -> Result<u32, u8> {
        let bits = self.word()?;
        if coordinate_is_accepted(bits) {
            Ok(bits)
        } else {
            Err(6)
        }
    }

    fn vertex(&mut self) -> Result<Vertex, u8> {
        let bits = [
            self.coordinate()?,
            self.coordinate()?,
            self.coordinate()?,
            self.coordinate()?,
        ];
        let flags = u32::from(self.byte()?);
        if flags > 15 {
            return Err(5);
        }
        Ok(Vertex {
            bits,
            flags,
            tag: self.word()?,
            k: self.word()?,
        })
    }

    fn vertex_number(&mut self, below: usize) -> Result<u32, u8> {
        let number = self.word()?;
        if (number as usize) < below {
            Ok(number)
        } else {
            Err(7)
        }
    }

    fn parity(&mut self) -> Result<u32, u8> {
        let parity = u32::from(self.byte()?);
        if parity > 1 {
            return Err(5);
        }
        Ok(parity)
    }

    fn elements(&mut self, lent: usize, corners: usize, below: usize) -> Result<Vec<Element>, u8> {
        let count = self.count(lent)?;
        self.times(count, |file| {
            Ok(Element {
                corners: file.times(corners, |f| f.vertex_number(below))?,
                parity: file.parity()?,
            })
        })
    }
}

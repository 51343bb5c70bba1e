//! From a case that shows something to the smallest one nearby that shows it too.
use crate::case::{Case, Given};
use reference::mesh::{Mesh, Vertex};
use std::cmp::Ordering;

/// What can be made smaller, step by step.
pub trait Shrink: Sized {
    /// Everything that is one step smaller.
    fn smaller(&self) -> Vec<Self>;
}

/// Takes away whatever can go while `shows` still holds, until nothing can.
pub fn smallest<T: Shrink>(mut case: T, shows: &dyn Fn(&T) -> bool) -> T {
    while let Some(smaller) = case.smaller().into_iter().find(|c| shows(c)) {
        case = smaller;
    }
    case
}

/// Less deep, or on a smaller mesh.
impl Shrink for Case {
    fn smaller(&self) -> Vec<Case> {
        let asked = |depth: u8, smooth_time: u8| Case {
            depth,
            smooth_time,
            ..self.clone()
        };
        let mut found = vec![];
        if self.depth > 0 {
            found.push(asked(self.depth / 2, self.smooth_time));
            found.push(asked(self.depth - 1, self.smooth_time));
        }
        if self.smooth_time > 0 {
            found.push(asked(self.depth, 0));
        }
        found.extend(self.given.smaller().into_iter().map(|given| Case {
            given,
            ..self.clone()
        }));
        found
    }
}

/// On a smaller mesh, with its counts where they are the mesh's own; or without a patch. What is lent stays.
impl Shrink for Given {
    fn smaller(&self) -> Vec<Given> {
        let stated = self.counts == self.mesh.sizes();
        let on = |mesh: Mesh| Given {
            counts: if stated { mesh.sizes() } else { self.counts },
            mesh,
            ..self.clone()
        };
        let mut found: Vec<Given> = self.mesh.smaller().into_iter().map(on).collect();
        for i in 0..self.patches.len() {
            let mut next = self.clone();
            next.patches.remove(i);
            found.push(next);
        }
        if self.fill > 0 {
            found.push(Given {
                fill: 0,
                ..self.clone()
            });
        }
        found
    }
}

/// An entry less, or a 0 where something else stands.
impl Shrink for Mesh {
    fn smaller(&self) -> Vec<Mesh> {
        let mut found = vec![];
        let mut step = |change: &dyn Fn(&mut Mesh)| {
            let mut next = self.clone();
            change(&mut next);
            found.push(next);
        };
        for (list, entries) in self.sizes().list()[..6].iter().enumerate() {
            for i in (0..*entries).rev() {
                step(&|m| remove(m, list, i));
            }
        }
        for i in 0..self.curves.len() {
            if self.curves[i].verts.len() > 1 {
                step(&|m| shorten(m, i));
            }
        }
        for (i, vertex) in self.verts.iter().enumerate() {
            for plainer in plainer(vertex) {
                step(&|m| m.verts[i] = plainer);
            }
        }
        found
    }
}

/// An entry of a list goes.
fn remove(mesh: &mut Mesh, list: usize, i: usize) {
    match list {
        0 => remove_vertex(mesh, i),
        1 => drop(mesh.points.drain(i..=i)),
        2 => drop(mesh.lines.drain(i..=i)),
        3 => drop(mesh.areas.drain(i..=i)),
        4 => drop(mesh.volumes.drain(i..=i)),
        _ => drop(mesh.curves.drain(i..=i)),
    }
}

/// A vertex goes, those after it move up, and vertex 0 takes its places.
fn remove_vertex(mesh: &mut Mesh, i: usize) {
    mesh.verts.remove(i);
    let lists = [&mut mesh.lines, &mut mesh.areas, &mut mesh.volumes];
    let corners = lists.into_iter().flatten().flat_map(|e| &mut e.corners);
    let curves = mesh.curves.iter_mut().flat_map(|c| &mut c.verts);
    for number in corners.chain(&mut mesh.points).chain(curves) {
        *number = match (*number as usize).cmp(&i) {
            Ordering::Less => *number,
            Ordering::Equal => 0,
            Ordering::Greater => *number - 1,
        };
    }
}

/// A curve without its first vertex.
fn shorten(mesh: &mut Mesh, i: usize) {
    mesh.curves[i].verts.remove(0);
    mesh.curves[i].steps.remove(0);
}

/// A vertex with a 0 where it has something else.
fn plainer(vertex: &Vertex) -> Vec<Vertex> {
    let without = |axis: usize| {
        let mut bits = vertex.bits;
        bits[axis] = 0;
        Vertex { bits, ..*vertex }
    };
    let mut found: Vec<Vertex> = (0..4).map(without).collect();
    found.push(Vertex {
        flags: 0,
        ..*vertex
    });
    found.push(Vertex { tag: 0, ..*vertex });
    found.push(Vertex { k: 0, ..*vertex });
    found.retain(|plainer| plainer != vertex);
    found
}

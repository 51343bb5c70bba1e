//! The listing of document 01, section 8: one space between words, every line ends with a newline.

use std::fmt::{Display, Write};

use crate::{
    memory::Normal,
    mesh::{Element, Mesh},
};

fn line(out: &mut String, head: &str, words: impl IntoIterator<Item = impl Display>) {
    out.push_str(head);
    for word in words {
        write!(out, " {word}").unwrap();
    }
    out.push('\n');
}

const fn letter(parity: u32) -> &'static str {
    if parity == 0 {
        "e"
    } else {
        "o"
    }
}

fn bits(words: &[u32]) -> impl Iterator<Item = String> + '_ {
    words.iter().map(|b| format!("{b:08X}"))
}

fn elements(out: &mut String, head: &str, list: &[Element]) {
    for e in list {
        let corners = e.corners.iter().map(u32::to_string);
        line(out, head, corners.chain([letter(e.parity).to_string()]));
    }
}

/// "First the number of whole passes. v: number and bits of x, y, z, w in hexadecimal; then p, l, a, s (volumes), c".
#[must_use]
pub fn mesh(passes: usize, mesh: &Mesh) -> String {
    let mut out = format!("passes {passes}\n");
    for (number, v) in mesh.verts.iter().enumerate() {
        line(
            &mut out,
            "v",
            [number.to_string()].into_iter().chain(bits(&v.bits)),
        );
    }
    for p in &mesh.points {
        line(&mut out, "p", [p]);
    }
    elements(&mut out, "l", &mesh.lines);
    elements(&mut out, "a", &mesh.areas);
    elements(&mut out, "s", &mesh.volumes);
    for c in &mesh.curves {
        let steps = c.steps[..c.verts.len() - 1]
            .iter()
            .map(|s| letter(*s).to_string());
        line(
            &mut out,
            "c",
            c.verts.iter().map(u32::to_string).chain(steps),
        );
    }
    out
}

/// `n`, the vertex's number and the bits of the components, or the word `flat` in their place.
#[must_use]
pub fn normals<const N: usize>(passes: usize, normals: &[Normal<N>]) -> String {
    let mut out = format!("passes {passes}\n");
    for (number, normal) in normals.iter().enumerate() {
        let words: Vec<String> = match normal {
            Normal::Direction(components) => bits(components).collect(),
            Normal::Flat => vec!["flat".to_string()],
        };
        line(&mut out, "n", [number.to_string()].into_iter().chain(words));
    }
    out
}

/// "A refusal prints only `refused N after P`".
#[must_use]
pub fn refusal(number: u8, passes: usize) -> String {
    format!("refused {number} after {passes}\n")
}

//! The Rust reference of document 01: the carried modules with document 01's stand-ins, its file format and its
//! refusals around them. Nothing of the carried code is rewritten; where a line had to be touched it says
//! `stand-in:`.

// The names under which the carried modules look for other crates: this crate stands in for each of them.
extern crate self as homotopy_common;
extern crate self as homotopy_core;
extern crate self as petgraph;
extern crate self as ultraviolet;

// Carried across from docs/src.
pub mod geom;
pub mod idx;
pub mod parity;
pub mod subdivision;

// Stand-ins for what is not in docs/src.
pub mod graph;
pub mod hash;
pub mod stand_ins;

pub use stand_ins::{Diagram0, Direction, Mat3, Mat4, Vec3, Vec4};

// Document 01's own: the mesh as words, the file, the refusals, the listing, and inputs to try.
pub mod file;
pub mod listing;
pub mod memory;
pub mod mesh;
pub mod random;
pub mod sheet;

// Document 01's refinement, ledger and sums of normals from its sentences alone, to hold the others against.
pub mod gathered;
pub mod ledger;
pub mod model;

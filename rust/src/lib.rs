//! Refined surfaces: the geometries of homotopy-graphics over the engine Aljumeste, which is proved to do what its definitions say, bit for
//! bit in IEEE 754 binary32.
//!
//! A caller of homotopy-graphics changes its imports (`aljumeste::geom`, `aljumeste::parity`, `aljumeste::idx`, [`Vec3`] and [`Vec4`] for
//! ultraviolet's) and little else:
//! - What can be refused answers a `Result` with a [`Refusal`]: [`subdivide`](CubicalGeometry::subdivide), `compute_normals_3d` and
//!   `compute_normals_4d`. `SimplicialGeometry::from` panics where [`triangulated`](CubicalGeometry::triangulated) answers a refusal.
//! - A generator is a 32-bit tag and `k` a 32-bit number; for homotopy-graphics' `usize::MAX` stands `u32::MAX`. A midpoint has both of the end
//!   with the smaller `k`, of the first end on a tie, where homotopy-graphics always takes the first: so where the `k` differ, a join of two strands
//!   has one colour whichever way its line goes.
//! - A vertex without a normal has +0 in every place, and not NaN.
//! - [`read`] is new; inflation and styles are left out.
//!
//! ```
//! use aljumeste::{CubicalGeometry, Parity, SimplicialGeometry, Vec4, VertData};
//!
//! // The corners of a cube, x first, then y, then z.
//! let mut cubes = CubicalGeometry::default();
//! let corners = [0, 1, 2, 3, 4, 5, 6, 7].map(|i: u8| {
//!     let along = |bit: u8| if i >> bit & 1 == 1 { 8.0 } else { 0.0 };
//!     cubes.mk_vert(VertData {
//!         position: Vec4::new(along(0), along(1), along(2), 0.0),
//!         boundary: [false; 4],
//!         generator: 7,
//!         k: 3,
//!     })
//! });
//! cubes.mk_volume(corners, Parity::Even);
//!
//! // One pass, time left as it is: eight cubes, each corner moved to the middle of its cube.
//! cubes.subdivide(false, 1)?;
//! assert_eq!((cubes.verts.len(), cubes.volumes.len()), (27, 8));
//! assert_eq!(cubes.verts[corners[7]].position, Vec4::new(6.0, 6.0, 6.0, 0.0));
//!
//! // Six tetrahedra a cube.
//! let simplices = SimplicialGeometry::from(cubes);
//! assert_eq!(simplices.volumes.len(), 48);
//!
//! // All of it stands at one time: every normal points along time.
//! let normals = simplices.compute_normals_4d()?;
//! assert!(normals.values().all(|n| (n.x, n.y, n.z) == (0.0, 0.0, 0.0) && n.w.abs() == 1.0));
//! # Ok::<(), aljumeste::Refusal>(())
//! ```
//!
//! A refusal has document 01's number and says in words what is wrong:
//!
//! ```
//! use aljumeste::{geom::Vert, idx::Idx, Parity, Refusal, SimplicialGeometry};
//!
//! let mut simplices = SimplicialGeometry::default();
//! simplices.mk_line([Vert::new(0), Vert::new(1)], Parity::Even);
//! let refusal = simplices.subdivide(true, 3).unwrap_err();
//! assert_eq!((refusal, refusal.number()), (Refusal::Vertex, 7));
//! assert_eq!(refusal.to_string(), "refused by 7: a vertex number is not below the vertex count");
//! ```
//!
//! Memory is lent to the engine at once, as much as a mesh of its sizes can come to need, so that 10 is refused at the limit of 1,048,576
//! entries alone. Whoever wants to lend it himself, or to keep it between calls, finds the engine's own functions in [`raw`].
#![deny(missing_docs, unsafe_code, unsafe_op_in_unsafe_fn)]

mod engine;
mod file;
pub mod geom;
pub mod idx;
mod lending;
mod lists;
pub mod parity;
pub mod raw;
mod refusal;
mod rows;
mod vector;
mod words;

pub use file::{read, Figure};
pub use geom::{CubicalGeometry, CurveData, SimplicialGeometry, VertData};
pub use parity::Parity;
pub use refusal::Refusal;
pub use vector::{Vec3, Vec4};

/// The most entries of each list, and of the midpoint book.
pub const LIMIT: usize = 1_048_576;

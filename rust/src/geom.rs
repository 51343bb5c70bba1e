//! Geometries, as in homotopy-graphics: cubical and simplicial, refined, cut into simplices and given normals by the engine.
use crate::{
    idx::{Idx, IdxVec},
    lending::{CUBES, SIMPLICES},
    parity::Parity,
    raw::{self, Mesh, Sizes},
    Refusal, Vec3, Vec4,
};

macro_rules! declare_idx {
    ($($(#[$words:meta])* $name:ident)*) => {$(
        $(#[$words])*
        #[derive(Copy, Clone, PartialEq, Eq, PartialOrd, Ord, Hash, Default, Debug)]
        #[repr(transparent)]
        pub struct $name(pub(crate) u32);

        impl Idx for $name {
            fn index(&self) -> usize {
                self.0 as usize
            }

            /// A number of more than 32 bits becomes the greatest of 32, which is beyond every list that is accepted.
            fn new(index: usize) -> Self {
                Self(u32::try_from(index).unwrap_or(u32::MAX))
            }
        }
    )*};
}

declare_idx! {
    /// A vertex, by its number.
    Vert
    /// A curve's place in its list.
    Curve
    /// A point's place in its list.
    Point
    /// A line's place in its list.
    Line
    /// An area's place in its list.
    Area
    /// A volume's place in its list.
    Volume
}

/// What the elements of a geometry are.
pub trait ElementData {
    /// A vertex.
    type Point: Copy + Eq;
    /// Its corners.
    type Line: Copy + Eq;
    /// Its corners.
    type Area: Copy + Eq;
    /// Its corners.
    type Volume: Copy + Eq;
}

/// A mesh of one kind.
#[derive(Default, Clone, Debug, PartialEq)]
pub struct Geometry<E: ElementData> {
    /// Positions and what goes with them.
    pub verts: IdxVec<Vert, VertData>,
    /// Strands through the vertices, for drawing.
    pub curves: IdxVec<Curve, CurveData>,
    /// Vertices that are drawn as points.
    pub points: IdxVec<Point, E::Point>,
    /// Lines with their parities.
    pub lines: IdxVec<Line, (E::Line, Parity)>,
    /// Squares or triangles with their parities.
    pub areas: IdxVec<Area, (E::Area, Parity)>,
    /// Cubes or tetrahedra with their parities.
    pub volumes: IdxVec<Volume, (E::Volume, Parity)>,
}

impl<E: ElementData> Geometry<E> {
    /// Adds a vertex.
    pub fn mk_vert(&mut self, vert: VertData) -> Vert {
        self.verts.push(vert)
    }

    /// Adds a point.
    pub fn mk_point(&mut self, point: E::Point) -> Point {
        self.points.push(point)
    }

    /// Adds a line.
    pub fn mk_line(&mut self, line: E::Line, parity: Parity) -> Line {
        self.lines.push((line, parity))
    }

    /// Adds an area.
    pub fn mk_area(&mut self, area: E::Area, parity: Parity) -> Area {
        self.areas.push((area, parity))
    }

    /// Adds a volume.
    pub fn mk_volume(&mut self, volume: E::Volume, parity: Parity) -> Volume {
        self.volumes.push((volume, parity))
    }

    /// The least and the greatest coordinate on each axis; infinities where there is no vertex.
    #[must_use]
    pub fn bounds(&self) -> (Vec4, Vec4) {
        let (mut min, mut max) = ([f32::INFINITY; 4], [f32::NEG_INFINITY; 4]);
        for vert in self.verts.values() {
            for (axis, at) in <[f32; 4]>::from(vert.position).into_iter().enumerate() {
                min[axis] = min[axis].min(at);
                max[axis] = max[axis].max(at);
            }
        }
        (min.into(), max.into())
    }
}

/// A vertex.
#[derive(Clone, Debug, PartialEq)]
pub struct VertData {
    /// Coordinates are finite and from -1,024 to 1,024, or refused by 6.
    pub position: Vec4,
    /// The axes along which smoothing leaves the vertex where it is.
    pub boundary: [bool; 4],
    /// A tag, where homotopy-graphics has a `Diagram0`: any number, and never interpreted. A midpoint has that of the end with the smaller `k`.
    pub generator: u32,
    /// Any number. A midpoint has the smaller of its ends', with the tag beside it; on a tie both are of the first end. Nothing else goes by it.
    pub k: u32,
}

/// A curve.
#[derive(Clone, Debug, PartialEq, Eq)]
pub struct CurveData {
    /// Its vertices: one at least, or it is refused by 8.
    pub verts: Vec<Vert>,
    /// The parity of each step to the next vertex: one fewer than the vertices, or it is refused by 9.
    pub parities: Vec<Parity>,
    /// A tag that is carried and not interpreted.
    pub generator: u32,
}

/// Squares and cubes.
#[derive(Default, Clone, Debug, PartialEq)]
pub struct CubeData;

/// Triangles and tetrahedra.
#[derive(Default, Clone, Debug, PartialEq)]
pub struct SimplexData;

impl ElementData for CubeData {
    type Point = Vert;
    type Line = [Vert; 2];
    type Area = [Vert; 4];
    type Volume = [Vert; 8];
}

impl ElementData for SimplexData {
    type Point = Vert;
    type Line = [Vert; 2];
    type Area = [Vert; 3];
    type Volume = [Vert; 4];
}

/// A mesh of squares and cubes.
pub type CubicalGeometry = Geometry<CubeData>;
/// A mesh of triangles and tetrahedra.
pub type SimplicialGeometry = Geometry<SimplexData>;

// Subdivision

impl CubicalGeometry {
    /// Refines in so many passes, each of which also smooths; `smooth_time` lets it move w too.
    ///
    /// # Errors
    /// 6, 7, 8 or 9 for what is wrong with the geometry, which stays as it was. 10 where a pass would take a list, or the midpoint book, over
    /// the limit: the geometry is then that of the passes before, and the refusal says how many.
    pub fn subdivide(&mut self, smooth_time: bool, depth: u8) -> Result<(), Refusal> {
        self.refine(&CUBES, smooth_time, depth)
    }
}

impl SimplicialGeometry {
    /// Refines in so many passes, each of which also smooths; `smooth_time` lets it move w too.
    ///
    /// # Errors
    /// As for cubes.
    pub fn subdivide(&mut self, smooth_time: bool, depth: u8) -> Result<(), Refusal> {
        self.refine(&SIMPLICES, smooth_time, depth)
    }
}

// Triangulation

impl CubicalGeometry {
    /// The same mesh with every square cut into two triangles and every cube into six tetrahedra; pieces with equal neighbours are dropped. Cubes that
    /// close give tetrahedra that close: for faces without equal neighbours, and, where every tetrahedron has four different corners, for all.
    ///
    /// # Errors
    /// 6, 7, 8 or 9 for what is wrong with the geometry, and 10 where triangles or tetrahedra would be over the limit.
    pub fn triangulated(&self) -> Result<SimplicialGeometry, Refusal> {
        Ok(Geometry {
            verts: self.verts.clone(),
            curves: self.curves.clone(),
            points: self.points.clone(),
            lines: self.lines.clone(),
            ..self.pieces()?
        })
    }
}

/// The triangulation of a geometry that is known to be accepted.
///
/// # Panics
/// With the refusal's sentence, where [`triangulated`](CubicalGeometry::triangulated) answers a refusal.
impl From<CubicalGeometry> for SimplicialGeometry {
    fn from(geom: CubicalGeometry) -> Self {
        match geom.pieces() {
            Ok(pieces) => Self {
                verts: geom.verts,
                curves: geom.curves,
                points: geom.points,
                lines: geom.lines,
                ..pieces
            },
            Err(refusal) => panic!("the triangulation is {refusal}"),
        }
    }
}

// Normals

impl SimplicialGeometry {
    /// Each vertex's normal to the triangles that it is a corner of; +0 in every place where it has none.
    ///
    /// An odd triangle counts with the other sign. With every parity changed a vertex without a normal stays so, each component whose sum isn't
    /// zero changes its sign bit alone, and every other is +0 both times.
    ///
    /// # Errors
    /// 6, 7, 8, 9 or 10 for what is wrong with the geometry.
    pub fn compute_normals_3d(&self) -> Result<IdxVec<Vert, Vec3>, Refusal> {
        Ok(self.normals(raw::compute_normals_3d)?.map(Vec3::from))
    }

    /// The same in 4D, to the tetrahedra, with the same turn where every parity is changed.
    ///
    /// # Errors
    /// 6, 7, 8, 9 or 10 for what is wrong with the geometry.
    pub fn compute_normals_4d(&self) -> Result<IdxVec<Vert, Vec4>, Refusal> {
        Ok(self.normals(raw::compute_normals_4d)?.map(Vec4::from))
    }

    /// Written where the caller finds them: turning numbers into vectors leaves each in its place.
    fn normals<const D: usize>(
        &self,
        entry: fn(Mesh, &Sizes, &mut [f32]) -> u8,
    ) -> Result<IdxVec<Vert, [f32; D]>, Refusal> {
        let mut normals = vec![[0.0; D]; self.verts.len()];
        let number = self.shared(|mesh, sizes| entry(mesh, sizes, normals.as_flattened_mut()))?;
        Refusal::judged(number, 0)?;
        Ok(normals.into())
    }
}

#[cfg(test)]
mod tests {
    use super::*;

    #[test]
    fn the_box_of_a_geometry() {
        let mut geom = SimplicialGeometry::default();
        for position in [Vec4::new(1., -2., 3., 0.), Vec4::new(0., 5., 3., -4.)] {
            geom.mk_vert(VertData {
                position,
                boundary: [false; 4],
                generator: 0,
                k: 0,
            });
        }
        let (min, max) = geom.bounds();
        assert_eq!(min, Vec4::new(0., -2., 3., -4.));
        assert_eq!(max, Vec4::new(1., 5., 3., 0.));
    }
}

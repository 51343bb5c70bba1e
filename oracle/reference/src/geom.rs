// stand-in: `std::{cmp::Ordering, f32::consts::{PI, TAU}, mem}` left out, used by what is left out below.
use homotopy_common::{declare_idx, idx::IdxVec}; // stand-in: `hash::FastHashMap` left out, used by `CubicalGeometry::new`.
use homotopy_core::Diagram0; // stand-in: the other names of homotopy_core left out, used by `CubicalGeometry::new`.
use ultraviolet::{Mat3, Vec3, Vec4};

use crate::parity::Parity; // stand-in: `style` left out, used by inflation.

// Geometry

declare_idx! {
    pub struct Vert = usize;
    pub struct Curve = usize;
    pub struct Point = usize;
    pub struct Line = usize;
    pub struct Area = usize;
    pub struct Volume = usize;
}

pub trait ElementData {
    type Point: Copy + Eq;
    type Line: Copy + Eq;
    type Area: Copy + Eq;
    type Volume: Copy + Eq;
}

#[derive(Default, Clone, Debug)]
pub struct Geometry<E: ElementData> {
    pub verts: IdxVec<Vert, VertData>,
    pub curves: IdxVec<Curve, CurveData>,
    pub points: IdxVec<Point, E::Point>,
    pub lines: IdxVec<Line, (E::Line, Parity)>,
    pub areas: IdxVec<Area, (E::Area, Parity)>,
    pub volumes: IdxVec<Volume, (E::Volume, Parity)>,
}

impl<E> Geometry<E>
where
    E: ElementData,
{
    pub fn mk_vert(&mut self, vert: VertData) -> Vert {
        self.verts.push(vert)
    }

    pub fn mk_displaced_copy(&mut self, vert: Vert, displacement: Vec4) -> Vert {
        let vert @ VertData { position, .. } = self.verts[vert].clone();
        self.mk_vert(VertData {
            position: position + displacement,
            ..vert
        })
    }

    pub fn mk_point(&mut self, point: E::Point) -> Point {
        self.points.push(point)
    }

    pub fn mk_line(&mut self, line: E::Line, parity: Parity) -> Line {
        self.lines.push((line, parity))
    }

    pub fn mk_area(&mut self, area: E::Area, parity: Parity) -> Area {
        self.areas.push((area, parity))
    }

    pub fn mk_volume(&mut self, volume: E::Volume, parity: Parity) -> Volume {
        self.volumes.push((volume, parity))
    }

    #[must_use]
    pub fn bounds(&self) -> (Vec4, Vec4) {
        self.verts.values().fold(
            (
                Vec4::broadcast(f32::INFINITY),
                Vec4::broadcast(f32::NEG_INFINITY),
            ),
            |(min, max), vert| {
                (
                    min.min_by_component(vert.position),
                    max.max_by_component(vert.position),
                )
            },
        )
    }
}

// Vert data

#[derive(Clone, Debug)]
pub struct VertData {
    pub position: Vec4,
    pub boundary: [bool; 4],
    pub generator: Diagram0,
    pub k: usize,
}

// stand-in: left out: `calculate_boundary`, used by `CubicalGeometry::new`.

// Curve data

#[derive(Clone, Debug)]
pub struct CurveData {
    pub verts: Vec<Vert>,
    pub parities: Vec<Parity>,
    pub generator: Diagram0,
}

// Element data

#[derive(Default)]
pub struct CubeData;

#[derive(Default)]
pub struct SimplexData;

impl ElementData for CubeData {
    type Point = Vert;
    type Line = [Vert; 2];
    type Area = [Vert; 4];
    type Volume = [Vert; 8];
}

impl ElementData for SimplexData {
    type Point = Vert;
    type Line = [Vert; 2];
    type Area = [Vert; 3];
    type Volume = [Vert; 4];
}

pub type CubicalGeometry = Geometry<CubeData>;
pub type SimplicialGeometry = Geometry<SimplexData>;

// stand-in: left out: `CubicalGeometry::new`.

// Triangulation

impl CubicalGeometry {
    fn triangulate_square(&self, square: Area) -> impl Iterator<Item = ([Vert; 3], Parity)> + '_ {
        const TRI_ASSEMBLY_ORDER: [([usize; 3], Parity); 2] =
            [([0, 1, 3], Parity::Even), ([0, 2, 3], Parity::Odd)];

        let (verts, parity) = self.areas[square];
        TRI_ASSEMBLY_ORDER
            .into_iter()
            .filter_map(move |([i, j, k], tri_parity)| {
                let tri @ [a, b, c] = [verts[i], verts[j], verts[k]];
                (a != b && b != c).then(|| (tri, parity * tri_parity))
            })
    }

    fn triangulate_cube(&self, cube: Volume) -> impl Iterator<Item = ([Vert; 4], Parity)> + '_ {
        const TETRA_ASSEMBLY_ORDER: [([usize; 4], Parity); 6] = [
            ([0, 1, 3, 7], Parity::Even),
            ([0, 1, 5, 7], Parity::Odd),
            ([0, 2, 3, 7], Parity::Odd),
            ([0, 2, 6, 7], Parity::Even),
            ([0, 4, 5, 7], Parity::Even),
            ([0, 4, 6, 7], Parity::Odd),
        ];

        let (verts, parity) = self.volumes[cube];
        TETRA_ASSEMBLY_ORDER
            .into_iter()
            .filter_map(move |([i, j, k, l], tetra_parity)| {
                let tetra @ [a, b, c, d] = [verts[i], verts[j], verts[k], verts[l]];
                (a != b && b != c && c != d).then(|| (tetra, parity * tetra_parity))
            })
    }
}

impl From<CubicalGeometry> for SimplicialGeometry {
    fn from(geom: CubicalGeometry) -> Self {
        let areas = geom
            .areas
            .keys()
            .flat_map(|square| geom.triangulate_square(square))
            .collect();
        let volumes = geom
            .volumes
            .keys()
            .flat_map(|cube| geom.triangulate_cube(cube))
            .collect();

        Self {
            verts: geom.verts,
            curves: geom.curves,
            points: geom.points,
            lines: geom.lines,
            areas,
            volumes,
        }
    }
}

// stand-in: left out: inflation (`inflate_point_3d` to `inflate_3d`).

impl SimplicialGeometry {
    #[must_use]
    pub fn compute_normals_3d(&self) -> IdxVec<Vert, Vec3> {
        let mut normals = IdxVec::splat(Vec3::zero(), self.verts.len());

        for ([i, j, k], parity) in self.areas.values().copied() {
            if i != j && j != k && k != i {
                let v_1 = self.verts[i].position.xyz();
                let v_2 = self.verts[j].position.xyz();
                let v_3 = self.verts[k].position.xyz();

                let sign = if parity.is_even() { 1. } else { -1. };
                let n = sign * (v_2 - v_1).cross(v_3 - v_2);

                normals[i] += n;
                normals[j] += n;
                normals[k] += n;
            }
        }

        for normal in normals.values_mut() {
            normal.normalize();
        }

        normals
    }

    #[must_use]
    pub fn compute_normals_4d(&self) -> IdxVec<Vert, Vec4> {
        let mut normals = IdxVec::splat(Vec4::zero(), self.verts.len());

        for ([i, j, k, l], parity) in self.volumes.values().copied() {
            let origin = self.verts[i].position;
            let v_0 = self.verts[j].position - origin;
            let v_1 = self.verts[k].position - origin;
            let v_2 = self.verts[l].position - origin;

            let xs = Vec3::new(v_0.x, v_1.x, v_2.x);
            let ys = Vec3::new(v_0.y, v_1.y, v_2.y);
            let zs = Vec3::new(v_0.z, v_1.z, v_2.z);
            let ws = Vec3::new(v_0.w, v_1.w, v_2.w);

            let m_0 = Mat3::new(ys, zs, ws);
            let m_1 = Mat3::new(xs, zs, ws);
            let m_2 = Mat3::new(xs, ys, ws);
            let m_3 = Mat3::new(xs, ys, zs);

            let sign = if parity.is_even() { 1. } else { -1. };
            let n = sign
                * Vec4::new(
                    -m_0.determinant(),
                    m_1.determinant(),
                    -m_2.determinant(),
                    m_3.determinant(),
                );

            normals[i] += n;
            normals[j] += n;
            normals[k] += n;
            normals[l] += n;
        }

        for normal in normals.values_mut() {
            normal.normalize();
        }

        normals
    }

    // stand-in: left out: `time_order`.
}

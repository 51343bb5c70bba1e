//! Stand-ins for what the carried Rust takes from ultraviolet and homotopy_core.
//!
//! Document 01, section 1: "These meanings are ours, and the oracle is built with the same stand-ins." "In sums,
//! differences, products and quotients each step rounds once, to nearest, ties to even, left to right, no fused
//! step": f32 arithmetic in Rust is that, and the compiler never fuses. Every operation below names its sentence.

use std::{
    iter::Sum,
    ops::{Add, AddAssign, Div, Index, IndexMut, Mul, Sub},
};

/// Document 01: "`Diagram0` is carried as a 32-bit tag".
pub type Diagram0 = u32;

/// For parity.rs alone (`from_direction`, `from_orientation`); document 01 leaves orientation lists out.
#[derive(Copy, Clone, Debug, PartialEq, Eq)]
pub enum Direction {
    Forward,
    Backward,
}

/// "A point is four binary32 numbers carried together, axes 0 to 3 (x, y, z, w; w is time)."
#[derive(Copy, Clone, Debug, Default, PartialEq)]
#[repr(C)]
pub struct Vec4 {
    pub x: f32,
    pub y: f32,
    pub z: f32,
    pub w: f32,
}

/// The same "in 3D without w".
#[derive(Copy, Clone, Debug, Default, PartialEq)]
#[repr(C)]
pub struct Vec3 {
    pub x: f32,
    pub y: f32,
    pub z: f32,
}

impl Vec4 {
    #[inline]
    #[must_use]
    pub const fn new(x: f32, y: f32, z: f32, w: f32) -> Self {
        Self { x, y, z, w }
    }

    #[inline]
    #[must_use]
    pub const fn broadcast(a: f32) -> Self {
        Self::new(a, a, a, a)
    }

    /// "`sum` starts from +0", and so do the sums of smoothing and of normals.
    #[inline]
    #[must_use]
    pub const fn zero() -> Self {
        Self::broadcast(0.)
    }

    #[inline]
    #[must_use]
    pub const fn xyz(self) -> Vec3 {
        Vec3::new(self.x, self.y, self.z)
    }

    /// "dot: ((x·x + y·y) + z·z) + w·w".
    #[inline]
    #[must_use]
    pub fn dot(self, other: Self) -> f32 {
        ((self.x * other.x + self.y * other.y) + self.z * other.z) + self.w * other.w
    }

    /// "normalise: r = 1/root(dot(v,v)), each component times r." "square root: the IEEE 754 result": f32::sqrt.
    #[inline]
    pub fn normalize(&mut self) {
        let r = 1. / self.dot(*self).sqrt();
        *self = Self::new(self.x * r, self.y * r, self.z * r, self.w * r);
    }

    /// For `Geometry::bounds` alone, which only the unused `bounds_preserved` calls; no sentence of document 01.
    #[must_use]
    pub fn min_by_component(self, other: Self) -> Self {
        Self::new(
            self.x.min(other.x),
            self.y.min(other.y),
            self.z.min(other.z),
            self.w.min(other.w),
        )
    }

    /// As `min_by_component`.
    #[must_use]
    pub fn max_by_component(self, other: Self) -> Self {
        Self::new(
            self.x.max(other.x),
            self.y.max(other.y),
            self.z.max(other.z),
            self.w.max(other.w),
        )
    }
}

impl Vec3 {
    #[inline]
    #[must_use]
    pub const fn new(x: f32, y: f32, z: f32) -> Self {
        Self { x, y, z }
    }

    #[inline]
    #[must_use]
    pub const fn zero() -> Self {
        Self::new(0., 0., 0.)
    }

    /// "dot: ((x·x + y·y) + z·z) + w·w, in 3D without w."
    #[inline]
    #[must_use]
    pub fn dot(self, other: Self) -> f32 {
        (self.x * other.x + self.y * other.y) + self.z * other.z
    }

    /// "cross(p,q): (py·qz - pz·qy, pz·qx - px·qz, px·qy - py·qx)."
    #[inline]
    #[must_use]
    pub fn cross(self, q: Self) -> Self {
        let p = self;
        Self::new(
            p.y * q.z - p.z * q.y,
            p.z * q.x - p.x * q.z,
            p.x * q.y - p.y * q.x,
        )
    }

    /// "normalise: r = 1/root(dot(v,v)), each component times r."
    #[inline]
    pub fn normalize(&mut self) {
        let r = 1. / self.dot(*self).sqrt();
        *self = Self::new(self.x * r, self.y * r, self.z * r);
    }
}

// "In sums, differences, products and quotients each step rounds once": one operation an axis.

impl Add for Vec4 {
    type Output = Self;

    #[inline]
    fn add(self, o: Self) -> Self {
        Self::new(self.x + o.x, self.y + o.y, self.z + o.z, self.w + o.w)
    }
}

impl AddAssign for Vec4 {
    #[inline]
    fn add_assign(&mut self, o: Self) {
        *self = *self + o;
    }
}

impl Sub for Vec4 {
    type Output = Self;

    #[inline]
    fn sub(self, o: Self) -> Self {
        Self::new(self.x - o.x, self.y - o.y, self.z - o.z, self.w - o.w)
    }
}

impl Mul<f32> for Vec4 {
    type Output = Self;

    #[inline]
    fn mul(self, a: f32) -> Self {
        Self::new(self.x * a, self.y * a, self.z * a, self.w * a)
    }
}

impl Mul<Vec4> for f32 {
    type Output = Vec4;

    #[inline]
    fn mul(self, v: Vec4) -> Vec4 {
        Vec4::new(self * v.x, self * v.y, self * v.z, self * v.w)
    }
}

impl Div<f32> for Vec4 {
    type Output = Self;

    #[inline]
    fn div(self, a: f32) -> Self {
        Self::new(self.x / a, self.y / a, self.z / a, self.w / a)
    }
}

impl Add for Vec3 {
    type Output = Self;

    #[inline]
    fn add(self, o: Self) -> Self {
        Self::new(self.x + o.x, self.y + o.y, self.z + o.z)
    }
}

impl AddAssign for Vec3 {
    #[inline]
    fn add_assign(&mut self, o: Self) {
        *self = *self + o;
    }
}

impl Sub for Vec3 {
    type Output = Self;

    #[inline]
    fn sub(self, o: Self) -> Self {
        Self::new(self.x - o.x, self.y - o.y, self.z - o.z)
    }
}

impl Mul<Vec3> for f32 {
    type Output = Vec3;

    #[inline]
    fn mul(self, v: Vec3) -> Vec3 {
        Vec3::new(self * v.x, self * v.y, self * v.z)
    }
}

/// "`sum` starts from +0", left to right.
impl Sum for Vec4 {
    #[inline]
    fn sum<I: Iterator<Item = Self>>(iter: I) -> Self {
        iter.fold(Self::zero(), |a, b| a + b)
    }
}

/// "axes 0 to 3".
impl Index<usize> for Vec4 {
    type Output = f32;

    #[inline]
    fn index(&self, axis: usize) -> &f32 {
        match axis {
            0 => &self.x,
            1 => &self.y,
            2 => &self.z,
            3 => &self.w,
            _ => panic!("a point has four axes"),
        }
    }
}

impl IndexMut<usize> for Vec4 {
    #[inline]
    fn index_mut(&mut self, axis: usize) -> &mut f32 {
        match axis {
            0 => &mut self.x,
            1 => &mut self.y,
            2 => &mut self.z,
            3 => &mut self.w,
            _ => panic!("a point has four axes"),
        }
    }
}

/// Three columns, for `compute_normals_4d`.
#[derive(Copy, Clone, Debug)]
pub struct Mat3 {
    cols: [Vec3; 3],
}

impl Mat3 {
    #[inline]
    #[must_use]
    pub const fn new(p: Vec3, q: Vec3, r: Vec3) -> Self {
        Self { cols: [p, q, r] }
    }

    /// "determinant of columns p, q, r: (p1·(q2·r3 - r2·q3) - q1·(p2·r3 - r2·p3)) + r1·(p2·q3 - q2·p3)."
    #[inline]
    #[must_use]
    pub fn determinant(&self) -> f32 {
        let [p, q, r] = self.cols;
        (p.x * (q.y * r.z - r.y * q.z) - q.x * (p.y * r.z - r.y * p.z))
            + r.x * (p.y * q.z - q.y * p.z)
    }
}

/// Four columns, for the cube pass's smoothing.
#[derive(Copy, Clone, Debug)]
pub struct Mat4 {
    cols: [Vec4; 4],
}

impl Mat4 {
    #[inline]
    #[must_use]
    pub const fn new(c0: Vec4, c1: Vec4, c2: Vec4, c3: Vec4) -> Self {
        Self {
            cols: [c0, c1, c2, c3],
        }
    }
}

/// "matrix times weight column: ((c0·w0 + c1·w1) + c2·w2) + c3·w3."
impl Mul<Vec4> for Mat4 {
    type Output = Vec4;

    #[inline]
    fn mul(self, w: Vec4) -> Vec4 {
        let [c0, c1, c2, c3] = self.cols;
        ((c0 * w.x + c1 * w.y) + c2 * w.z) + c3 * w.w
    }
}

/// The column rule for each column of weights: column i of the product is the matrix times weight column i.
impl Mul for Mat4 {
    type Output = Self;

    #[inline]
    fn mul(self, weights: Self) -> Self {
        Self {
            cols: weights.cols.map(|w| self * w),
        }
    }
}

/// Section 4: "a cube adds the rule for corners 0 to 3 and that for 4 to 7": column by column.
impl Add for Mat4 {
    type Output = Self;

    #[inline]
    fn add(self, o: Self) -> Self {
        Self {
            cols: [0, 1, 2, 3].map(|i| self.cols[i] + o.cols[i]),
        }
    }
}

/// A column.
impl Index<usize> for Mat4 {
    type Output = Vec4;

    #[inline]
    fn index(&self, column: usize) -> &Vec4 {
        &self.cols[column]
    }
}

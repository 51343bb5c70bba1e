//! Points, in the place of ultraviolet's: they hold numbers, and all arithmetic is the engine's.

/// A point or a direction of three binary32 numbers.
#[derive(Copy, Clone, Debug, Default, PartialEq)]
#[repr(C)]
pub struct Vec3 {
    /// Along axis 0.
    pub x: f32,
    /// Along axis 1.
    pub y: f32,
    /// Along axis 2.
    pub z: f32,
}

/// A point or a direction of four binary32 numbers; w is time.
#[derive(Copy, Clone, Debug, Default, PartialEq)]
#[repr(C)]
pub struct Vec4 {
    /// Along axis 0.
    pub x: f32,
    /// Along axis 1.
    pub y: f32,
    /// Along axis 2.
    pub z: f32,
    /// Along axis 3, time.
    pub w: f32,
}

impl Vec3 {
    /// From its components.
    #[must_use]
    pub const fn new(x: f32, y: f32, z: f32) -> Self {
        Self { x, y, z }
    }
}

impl Vec4 {
    /// From its components.
    #[must_use]
    pub const fn new(x: f32, y: f32, z: f32, w: f32) -> Self {
        Self { x, y, z, w }
    }

    /// Without time.
    #[must_use]
    pub const fn xyz(self) -> Vec3 {
        Vec3::new(self.x, self.y, self.z)
    }
}

impl From<[f32; 3]> for Vec3 {
    fn from([x, y, z]: [f32; 3]) -> Self {
        Self { x, y, z }
    }
}

impl From<[f32; 4]> for Vec4 {
    fn from([x, y, z, w]: [f32; 4]) -> Self {
        Self { x, y, z, w }
    }
}

impl From<Vec3> for [f32; 3] {
    fn from(v: Vec3) -> Self {
        [v.x, v.y, v.z]
    }
}

impl From<Vec4> for [f32; 4] {
    fn from(v: Vec4) -> Self {
        [v.x, v.y, v.z, v.w]
    }
}

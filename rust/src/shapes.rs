//! Shapes as the library takes and returns them, and other results of several numbers; those of floats alone also from and to an
//! array of their floats in order.
//!
//! Written by tests/generate from crates/types/src/shape.rt and the structs that routines return; not to be edited.

/// A point or a vector.
#[derive(Clone, Copy, Debug, PartialEq)]
#[repr(C)]
pub struct Vec2 {
    /// Grows with the column.
    pub x: f32,
    /// Grows with the row.
    pub y: f32,
}

impl From<[f32; 2]> for Vec2 {
    #[inline]
    fn from([x, y]: [f32; 2]) -> Self {
        Vec2 { x, y }
    }
}

impl From<Vec2> for [f32; 2] {
    #[inline]
    fn from(s: Vec2) -> Self {
        [s.x, s.y]
    }
}

/// A point or a vector of space.
#[derive(Clone, Copy, Debug, PartialEq)]
#[repr(C)]
pub struct Vec3 {
    /// Along the first axis.
    pub x: f32,
    /// Along the second axis.
    pub y: f32,
    /// Along the third axis.
    pub z: f32,
}

impl From<[f32; 3]> for Vec3 {
    #[inline]
    fn from([x, y, z]: [f32; 3]) -> Self {
        Vec3 { x, y, z }
    }
}

impl From<Vec3> for [f32; 3] {
    #[inline]
    fn from(s: Vec3) -> Self {
        [s.x, s.y, s.z]
    }
}

/// The numbers from low to high.
#[derive(Clone, Copy, Debug, PartialEq)]
#[repr(C)]
pub struct Range {
    /// The least number.
    pub low: f32,
    /// The greatest number.
    pub high: f32,
}

impl From<[f32; 2]> for Range {
    #[inline]
    fn from([low, high]: [f32; 2]) -> Self {
        Range { low, high }
    }
}

impl From<Range> for [f32; 2] {
    #[inline]
    fn from(s: Range) -> Self {
        [s.low, s.high]
    }
}

/// An upright box: an axis-aligned bounding box by its low and its high corner.
#[derive(Clone, Copy, Debug, PartialEq)]
#[repr(C)]
pub struct Aabb2 {
    /// x of the low corner.
    pub min_x: f32,
    /// y of the low corner.
    pub min_y: f32,
    /// x of the high corner.
    pub max_x: f32,
    /// y of the high corner.
    pub max_y: f32,
}

impl From<[f32; 4]> for Aabb2 {
    #[inline]
    fn from([min_x, min_y, max_x, max_y]: [f32; 4]) -> Self {
        Aabb2 { min_x, min_y, max_x, max_y }
    }
}

impl From<Aabb2> for [f32; 4] {
    #[inline]
    fn from(s: Aabb2) -> Self {
        [s.min_x, s.min_y, s.max_x, s.max_y]
    }
}

/// An upright box of space: an axis-aligned bounding box by its low and its high corner.
#[derive(Clone, Copy, Debug, PartialEq)]
#[repr(C)]
pub struct Aabb3 {
    /// x of the low corner.
    pub min_x: f32,
    /// y of the low corner.
    pub min_y: f32,
    /// z of the low corner.
    pub min_z: f32,
    /// x of the high corner.
    pub max_x: f32,
    /// y of the high corner.
    pub max_y: f32,
    /// z of the high corner.
    pub max_z: f32,
}

impl From<[f32; 6]> for Aabb3 {
    #[inline]
    fn from([min_x, min_y, min_z, max_x, max_y, max_z]: [f32; 6]) -> Self {
        Aabb3 { min_x, min_y, min_z, max_x, max_y, max_z }
    }
}

impl From<Aabb3> for [f32; 6] {
    #[inline]
    fn from(s: Aabb3) -> Self {
        [s.min_x, s.min_y, s.min_z, s.max_x, s.max_y, s.max_z]
    }
}

/// A turned box: an oriented bounding box by its centre and two half edges, u and v.
#[derive(Clone, Copy, Debug, PartialEq)]
#[repr(C)]
pub struct Obb2 {
    /// x of the centre.
    pub cx: f32,
    /// y of the centre.
    pub cy: f32,
    /// x of the half edge u.
    pub ux: f32,
    /// y of the half edge u.
    pub uy: f32,
    /// x of the half edge v.
    pub vx: f32,
    /// y of the half edge v.
    pub vy: f32,
}

impl From<[f32; 6]> for Obb2 {
    #[inline]
    fn from([cx, cy, ux, uy, vx, vy]: [f32; 6]) -> Self {
        Obb2 { cx, cy, ux, uy, vx, vy }
    }
}

impl From<Obb2> for [f32; 6] {
    #[inline]
    fn from(s: Obb2) -> Self {
        [s.cx, s.cy, s.ux, s.uy, s.vx, s.vy]
    }
}

/// A turned box of space: an oriented bounding box by its centre and three half edges, u, v and w.
#[derive(Clone, Copy, Debug, PartialEq)]
#[repr(C)]
pub struct Obb3 {
    /// x of the centre.
    pub cx: f32,
    /// y of the centre.
    pub cy: f32,
    /// z of the centre.
    pub cz: f32,
    /// x of the half edge u.
    pub ux: f32,
    /// y of the half edge u.
    pub uy: f32,
    /// z of the half edge u.
    pub uz: f32,
    /// x of the half edge v.
    pub vx: f32,
    /// y of the half edge v.
    pub vy: f32,
    /// z of the half edge v.
    pub vz: f32,
    /// x of the half edge w.
    pub wx: f32,
    /// y of the half edge w.
    pub wy: f32,
    /// z of the half edge w.
    pub wz: f32,
}

impl From<[f32; 12]> for Obb3 {
    #[inline]
    fn from([cx, cy, cz, ux, uy, uz, vx, vy, vz, wx, wy, wz]: [f32; 12]) -> Self {
        Obb3 { cx, cy, cz, ux, uy, uz, vx, vy, vz, wx, wy, wz }
    }
}

impl From<Obb3> for [f32; 12] {
    #[inline]
    fn from(s: Obb3) -> Self {
        [s.cx, s.cy, s.cz, s.ux, s.uy, s.uz, s.vx, s.vy, s.vz, s.wx, s.wy, s.wz]
    }
}

/// A 3 by 3 matrix in column-major order: mRC stands in row R and column C.
#[derive(Clone, Copy, Debug, PartialEq)]
#[repr(C)]
pub struct Mat3 {
    /// Row 0, column 0.
    pub m00: f32,
    /// Row 1, column 0.
    pub m10: f32,
    /// Row 2, column 0.
    pub m20: f32,
    /// Row 0, column 1.
    pub m01: f32,
    /// Row 1, column 1.
    pub m11: f32,
    /// Row 2, column 1.
    pub m21: f32,
    /// Row 0, column 2.
    pub m02: f32,
    /// Row 1, column 2.
    pub m12: f32,
    /// Row 2, column 2.
    pub m22: f32,
}

impl From<[f32; 9]> for Mat3 {
    #[inline]
    fn from([m00, m10, m20, m01, m11, m21, m02, m12, m22]: [f32; 9]) -> Self {
        Mat3 { m00, m10, m20, m01, m11, m21, m02, m12, m22 }
    }
}

impl From<Mat3> for [f32; 9] {
    #[inline]
    fn from(s: Mat3) -> Self {
        [s.m00, s.m10, s.m20, s.m01, s.m11, s.m21, s.m02, s.m12, s.m22]
    }
}

/// A square root, and how many of its binary digits were worked.
#[derive(Clone, Copy, Debug, PartialEq)]
#[repr(C)]
pub struct SqrtDigits {
    /// The root rounded to the nearest float; a NaN where there is none.
    pub root: f32,
    /// Up to the last 1 of an exact root, 24 of any other; 0 where none is worked.
    pub digits: u32,
}

/// A point of an edge, and its ratio along the edge.
#[derive(Clone, Copy, Debug, PartialEq)]
#[repr(C)]
pub struct OnEdge {
    /// 0 at the first end, 1 at the second.
    pub ratio: f32,
    /// Where it is.
    pub point: Vec2,
}

impl From<[f32; 3]> for OnEdge {
    #[inline]
    fn from([ratio, point_x, point_y]: [f32; 3]) -> Self {
        OnEdge { ratio, point: Vec2 { x: point_x, y: point_y } }
    }
}

impl From<OnEdge> for [f32; 3] {
    #[inline]
    fn from(s: OnEdge) -> Self {
        [s.ratio, s.point.x, s.point.y]
    }
}

/// Four corners, each joined to the next by an edge, and the last to the first.
#[derive(Clone, Copy, Debug, PartialEq)]
#[repr(C)]
pub struct Corners {
    /// c + u + v.
    pub p0: Vec2,
    /// c - u + v.
    pub p1: Vec2,
    /// c - u - v.
    pub p2: Vec2,
    /// c + u - v.
    pub p3: Vec2,
}

impl From<[f32; 8]> for Corners {
    #[inline]
    fn from([p0_x, p0_y, p1_x, p1_y, p2_x, p2_y, p3_x, p3_y]: [f32; 8]) -> Self {
        Corners {
            p0: Vec2 { x: p0_x, y: p0_y },
            p1: Vec2 { x: p1_x, y: p1_y },
            p2: Vec2 { x: p2_x, y: p2_y },
            p3: Vec2 { x: p3_x, y: p3_y },
        }
    }
}

impl From<Corners> for [f32; 8] {
    #[inline]
    fn from(s: Corners) -> Self {
        [s.p0.x, s.p0.y, s.p1.x, s.p1.y, s.p2.x, s.p2.y, s.p3.x, s.p3.y]
    }
}

/// Eight corners of space: four of one face, each joined to the next by an edge and the last to the
/// first, then those of the opposite face in the same order.
#[derive(Clone, Copy, Debug, PartialEq)]
#[repr(C)]
pub struct Corners3 {
    /// c - u - v - w.
    pub p0: Vec3,
    /// c + u - v - w.
    pub p1: Vec3,
    /// c + u + v - w.
    pub p2: Vec3,
    /// c - u + v - w.
    pub p3: Vec3,
    /// c - u - v + w.
    pub p4: Vec3,
    /// c + u - v + w.
    pub p5: Vec3,
    /// c + u + v + w.
    pub p6: Vec3,
    /// c - u + v + w.
    pub p7: Vec3,
}

impl From<[f32; 24]> for Corners3 {
    #[inline]
    fn from(floats: [f32; 24]) -> Self {
        Corners3 {
            p0: Vec3 { x: floats[0], y: floats[1], z: floats[2] },
            p1: Vec3 { x: floats[3], y: floats[4], z: floats[5] },
            p2: Vec3 { x: floats[6], y: floats[7], z: floats[8] },
            p3: Vec3 { x: floats[9], y: floats[10], z: floats[11] },
            p4: Vec3 { x: floats[12], y: floats[13], z: floats[14] },
            p5: Vec3 { x: floats[15], y: floats[16], z: floats[17] },
            p6: Vec3 { x: floats[18], y: floats[19], z: floats[20] },
            p7: Vec3 { x: floats[21], y: floats[22], z: floats[23] },
        }
    }
}

impl From<Corners3> for [f32; 24] {
    #[inline]
    fn from(s: Corners3) -> Self {
        [
            s.p0.x, s.p0.y, s.p0.z, s.p1.x, s.p1.y, s.p1.z, s.p2.x, s.p2.y, s.p2.z, s.p3.x, s.p3.y,
            s.p3.z, s.p4.x, s.p4.y, s.p4.z, s.p5.x, s.p5.y, s.p5.z, s.p6.x, s.p6.y, s.p6.z, s.p7.x,
            s.p7.y, s.p7.z,
        ]
    }
}

//! Transforms.
//!
//! Written by tests/generate from the exported functions bgz_mat3_..; not to be edited.

use crate::shapes::{Mat3, Vec2};

mod raw {
    use crate::answers::*;
    use crate::shapes::*;

    unsafe extern "C" {
        #[link_name = "bgz_mat3_transform_homogeneous"]
        pub safe fn transform_homogeneous(m: Mat3, p: Vec2) -> PointAnswer;
    }
}

/// The image of `p`: `m` times (p.x, p.y, 1), divided by its third component. None if that
/// component, as computed, is a zero.
///
/// # Example
///
/// ```
/// use bagnoszyk::{Mat3, Vec2, mat3};
///
/// let m = Mat3::from([1.0, 0.0, 0.0, 0.0, 1.0, 0.0, 2.0, 3.0, 1.0]);
/// let p = Vec2 { x: 4.0, y: 5.0 };
/// assert_eq!(mat3::transform_homogeneous(m, p), Some(Vec2 { x: 6.0, y: 8.0 }));
/// ```
#[inline]
pub fn transform_homogeneous(m: Mat3, p: Vec2) -> Option<Vec2> {
    raw::transform_homogeneous(m, p).option()
}

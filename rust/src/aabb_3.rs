//! Upright boxes of space: clipping lines, and what is inside.
//!
//! Written by tests/generate from the exported functions bgz_aabb_3_..; not to be edited.

use crate::answers::Interval;
use crate::shapes::{Aabb3, Vec3};

unsafe extern "C" {
    /// Whether `p` is in `b`, faces included. With a NaN in `p` or in `b` it is not, unlike for
    /// [`aabb3::is_contain`](crate::aabb3::is_contain).
    ///
    /// # Example
    ///
    /// ```
    /// use bagnoszyk::{Aabb3, Vec3, aabb_3};
    ///
    /// let b = Aabb3::from([0.0, 0.0, 0.0, 4.0, 2.0, 1.0]);
    /// let p = Vec3::from([4.0, 1.0, 1.0]);
    /// assert_eq!(aabb_3::is_include_point(b, p), true);
    /// ```
    #[link_name = "bgz_aabb_3_is_include_point"]
    pub safe fn is_include_point(b: Aabb3, p: Vec3) -> bool;

    /// (low + high) * 0.5, by component.
    ///
    /// # Example
    ///
    /// ```
    /// use bagnoszyk::{Aabb3, Vec3, aabb_3};
    ///
    /// let b = Aabb3::from([0.0, 0.0, 0.0, 4.0, 2.0, 1.0]);
    /// assert_eq!(aabb_3::center(b), Vec3::from([2.0, 1.0, 0.5]));
    /// ```
    #[link_name = "bgz_aabb_3_center"]
    pub safe fn center(b: Aabb3) -> Vec3;
}

mod raw {
    use crate::answers::*;
    use crate::shapes::*;

    unsafe extern "C" {
        #[link_name = "bgz_aabb_3_intersections_against_line"]
        pub safe fn intersections_against_line(
            b: Aabb3,
            origin: Vec3,
            direction: Vec3,
        ) -> IntervalAnswer;

        #[link_name = "bgz_aabb_3_intersections_against_ray"]
        pub safe fn intersections_against_ray(
            b: Aabb3,
            origin: Vec3,
            direction: Vec3,
        ) -> IntervalAnswer;
    }
}

/// The stretch of the line `origin` + t * `direction` in the box `b`, as
/// [`aabb::intersections_against_line`](crate::aabb::intersections_against_line) has it, with z
/// after x and y: from tmin to tmax, tmin <= tmax, both finite, faces included. None if the line
/// misses `b`. Rounding can turn a touched edge or corner into a miss, and a narrow miss into a
/// hit. A line that is in the box only at t beyond the finite numbers misses it. The edge is a face
/// of the box, told by the same rule with z after y: [`Edge::Near`](crate::Edge::Near) at min_z and
/// [`Edge::Far`](crate::Edge::Far) at max_z.
///
/// # Example
///
/// ```
/// use bagnoszyk::{Aabb3, Edge, Interval, Vec3, aabb_3};
///
/// let b = Aabb3::from([0.0, 0.0, 0.0, 4.0, 2.0, 1.0]);
/// let origin = Vec3::from([6.0, -1.0, 0.5]);
/// let direction = Vec3::from([-1.0, 1.0, 0.0]);
/// assert_eq!(aabb_3::intersections_against_line(b, origin, direction), Some(Interval { tmin: 2.0, tmax: 3.0, edge: Some(Edge::Right) }));
/// ```
#[inline]
pub fn intersections_against_line(b: Aabb3, origin: Vec3, direction: Vec3) -> Option<Interval> {
    raw::intersections_against_line(b, origin, direction).option()
}

/// The answer of [`aabb_3::intersections_against_line`](crate::aabb_3::intersections_against_line),
/// its edge too, if tmax >= 0, and else none. tmin is not raised to 0: it may be negative.
///
/// # Example
///
/// ```
/// use bagnoszyk::{Aabb3, Edge, Interval, Vec3, aabb_3};
///
/// let b = Aabb3::from([0.0, 0.0, 0.0, 4.0, 2.0, 1.0]);
/// let origin = Vec3::from([2.0, 1.0, 0.5]);
/// let direction = Vec3::from([1.0, 0.0, 0.0]);
/// assert_eq!(aabb_3::intersections_against_ray(b, origin, direction), Some(Interval { tmin: -2.0, tmax: 2.0, edge: Some(Edge::Left) }));
/// ```
#[inline]
pub fn intersections_against_ray(b: Aabb3, origin: Vec3, direction: Vec3) -> Option<Interval> {
    raw::intersections_against_ray(b, origin, direction).option()
}

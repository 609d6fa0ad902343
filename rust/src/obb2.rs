//! Turned boxes.
//!
//! Written by tests/generate from the exported functions bgz_obb2_..; not to be edited.

use crate::refusal::Refusal;
use crate::shapes::{Aabb2, Corners, Obb2, Vec2};

unsafe extern "C" {
    /// c + u + v, c - u + v, c - u - v, c + u - v.
    ///
    /// # Example
    ///
    /// ```
    /// use bagnoszyk::{Corners, Obb2, obb2};
    ///
    /// let o = Obb2::from([1.0, 1.0, 2.0, 0.0, 0.0, 1.0]);
    /// assert_eq!(obb2::corner_points(o), Corners::from([3.0, 2.0, -1.0, 2.0, -1.0, 0.0, 3.0, 0.0]));
    /// ```
    #[link_name = "bgz_obb2_corner_points"]
    pub safe fn corner_points(o: Obb2) -> Corners;

    /// Whether `p` is in `o`, edges included, by its dot products with u and v, as computed. Where
    /// u and v are at a right angle and no product overflows or underflows, that is the box, but
    /// for rounding. Else it is another region. A product that is a NaN counts as inside, and a
    /// half edge of length 0 does not bound its direction.
    ///
    /// # Example
    ///
    /// ```
    /// use bagnoszyk::{Obb2, Vec2, obb2};
    ///
    /// let o = Obb2::from([0.0, 0.0, 2.0, 0.0, 0.0, 1.0]);
    /// let p = Vec2 { x: 1.0, y: 1.0 };
    /// assert_eq!(obb2::is_include_point2(o, p), true);
    /// ```
    #[link_name = "bgz_obb2_is_include_point2"]
    pub safe fn is_include_point2(o: Obb2, p: Vec2) -> bool;

    /// Whether two turned boxes meet: no exactly if on some axis across a half edge of `a` or of
    /// `b` the computed projections of the corners of one lie strictly below those of the other.
    /// Ranges whose computed ends are equal overlap. Rounding parts some boxes that touch, and
    /// joins some that lie close. The order of `a` and `b` does not matter. Across a half edge of
    /// length 0 every finite corner projects to 0, so boxes that only that axis would part count as
    /// meeting. Projections that are NaN are left out. Where a box has no others on an axis, that
    /// axis parts it from the other box, unless that one reaches from -infinity to +infinity there.
    ///
    /// # Example
    ///
    /// ```
    /// use bagnoszyk::{Obb2, obb2};
    ///
    /// let a = Obb2::from([0.0, 0.0, 1.0, 0.0, 0.0, 1.0]);
    /// let b = Obb2::from([3.0, 0.0, 1.0, 0.0, 0.0, 1.0]);
    /// assert_eq!(obb2::is_intersect_obb2(a, b), false);
    /// ```
    #[link_name = "bgz_obb2_is_intersect_obb2"]
    pub safe fn is_intersect_obb2(a: Obb2, b: Obb2) -> bool;

    /// Whether a turned and an upright box meet: no exactly if on some axis (x, y, and those across
    /// u and v) the computed projections of the corners of one lie strictly below those of the
    /// other. Ranges whose computed ends are equal overlap. Rounding parts some boxes that touch,
    /// and joins some that lie close. Across a half edge of length 0 every finite corner projects
    /// to 0, so boxes that only that axis would part count as meeting. Projections that are NaN are
    /// left out. Where a box has no others on an axis, that axis parts it from the other box,
    /// unless that one reaches from -infinity to +infinity there.
    ///
    /// # Example
    ///
    /// ```
    /// use bagnoszyk::{Aabb2, Obb2, obb2};
    ///
    /// let o = Obb2::from([0.0, 0.0, 1.0, 1.0, -1.0, 1.0]);
    /// let b = Aabb2::from([1.0, 1.0, 3.0, 3.0]);
    /// assert_eq!(obb2::is_intersect_aabb2(o, b), true);
    /// ```
    #[link_name = "bgz_obb2_is_intersect_aabb2"]
    pub safe fn is_intersect_aabb2(o: Obb2, b: Aabb2) -> bool;
}

mod raw {
    use crate::answers::*;
    use crate::shapes::*;

    unsafe extern "C" {
        #[link_name = "bgz_obb2_nearest_point2"]
        pub safe fn nearest_point2(o: Obb2, p: Vec2) -> PointAnswer;
    }
}

/// `p` itself if [`obb2::is_include_point2`](crate::obb2::is_include_point2) says so; else the
/// nearest of the points that [`edge2::nearest_to_point`](crate::edge2::nearest_to_point) gives for
/// the four edges, the first of equals.
///
/// # Errors
///
/// [`Refusal::NAN_LENGTH`] if `p` is not included and its distance to one of the four is a NaN.
///
/// # Example
///
/// ```
/// use bagnoszyk::{Obb2, Vec2, obb2};
///
/// let o = Obb2::from([0.0, 0.0, 2.0, 0.0, 0.0, 1.0]);
/// let p = Vec2 { x: 5.0, y: 0.0 };
/// assert_eq!(obb2::nearest_point2(o, p), Ok(Vec2 { x: 2.0, y: 0.0 }));
/// ```
#[inline]
pub fn nearest_point2(o: Obb2, p: Vec2) -> Result<Vec2, Refusal> {
    raw::nearest_point2(o, p).result()
}

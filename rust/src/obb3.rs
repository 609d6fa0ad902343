//! Turned boxes of space.
//!
//! Written by tests/generate from the exported functions bgz_obb3_..; not to be edited.

use crate::refusal::Refusal;
use crate::shapes::{Corners3, Obb3, Vec3};

unsafe extern "C" {
    /// c - u - v - w, c + u - v - w, c + u + v - w, c - u + v - w, and the same four with + w.
    ///
    /// # Example
    ///
    /// ```
    /// use bagnoszyk::{Corners3, Obb3, obb3};
    ///
    /// let o = Obb3::from([0.0, 0.0, 0.0, 1.0, 0.0, 0.0, 0.0, 2.0, 0.0, 0.0, 0.0, 3.0]);
    /// assert_eq!(obb3::corner_points(o), Corners3::from([-1.0, -2.0, -3.0, 1.0, -2.0, -3.0, 1.0, 2.0, -3.0, -1.0, 2.0, -3.0, -1.0, -2.0, 3.0, 1.0, -2.0, 3.0, 1.0, 2.0, 3.0, -1.0, 2.0, 3.0]));
    /// ```
    #[link_name = "bgz_obb3_corner_points"]
    pub safe fn corner_points(o: Obb3) -> Corners3;

    /// Whether `p` is in `o`, faces included, by its dot products with u, v and w, as computed,
    /// each edge stretched by 1 + `eps`. With an `eps` of 0, where u, v and w are at right angles
    /// and no product overflows or underflows, that is the box, but for rounding. Else it is
    /// another region. A product that is a NaN counts as inside, and a half edge of length 0 does
    /// not bound its direction.
    ///
    /// # Example
    ///
    /// ```
    /// use bagnoszyk::{Obb3, Vec3, obb3};
    ///
    /// let o = Obb3::from([0.0, 0.0, 0.0, 2.0, 0.0, 0.0, 0.0, 1.0, 0.0, 0.0, 0.0, 1.0]);
    /// let p = Vec3::from([2.0, 1.0, 1.0]);
    /// assert_eq!(obb3::is_include_point(o, p, 0.0), true);
    /// ```
    #[link_name = "bgz_obb3_is_include_point"]
    pub safe fn is_include_point(o: Obb3, p: Vec3, eps: f32) -> bool;
}

mod raw {
    use crate::answers::*;
    use crate::shapes::*;

    unsafe extern "C" {
        #[link_name = "bgz_obb3_is_intersect_to_obb3"]
        pub safe fn is_intersect_to_obb3(a: Obb3, b: Obb3) -> BoolAnswer;
    }
}

/// Whether two turned boxes meet: no if on some axis the computed projections of the corners of one
/// lie strictly below those of the other. There are fifteen: u, v and w of `a`, each times 1 / its
/// norm, those of `b`, and the cross product of each of these of `a` with each of `b`. The first
/// axis that parts the boxes, or on which a projection is a NaN, decides. Ranges whose computed
/// ends are equal overlap. Rounding parts some boxes that touch, and joins some that lie close.
///
/// # Errors
///
/// [`Refusal::NAN_PROJECTION`] if a projection is a NaN on an axis that is reached, whether it
/// parts the boxes or not; as with a half edge of length 0.
///
/// # Example
///
/// ```
/// use bagnoszyk::{Obb3, obb3};
///
/// let a = Obb3::from([0.0, 0.0, 0.0, 1.0, 0.0, 0.0, 0.0, 1.0, 0.0, 0.0, 0.0, 1.0]);
/// let b = Obb3::from([3.0, 0.0, 0.0, 1.0, 0.0, 0.0, 0.0, 1.0, 0.0, 0.0, 0.0, 1.0]);
/// assert_eq!(obb3::is_intersect_to_obb3(a, b), Ok(false));
/// ```
#[inline]
pub fn is_intersect_to_obb3(a: Obb3, b: Obb3) -> Result<bool, Refusal> {
    raw::is_intersect_to_obb3(a, b).result()
}

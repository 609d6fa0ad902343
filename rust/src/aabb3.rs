//! Upright boxes of space: making, scaling and measuring them, what they hold and meet, and flat
//! lists of them.
//!
//! Written by tests/generate from the exported functions bgz_aabb3_..; not to be edited.

use crate::refusal::Refusal;
use crate::shapes::{Aabb3, Vec3};

unsafe extern "C" {
    /// The box around two boxes: the low end of `a` where it is below that of `b`, the high end
    /// where it is above that of `b`, and else the end of `b`. So a NaN of `a` drops out, and one
    /// of `b` stays.
    ///
    /// # Example
    ///
    /// ```
    /// use bagnoszyk::{Aabb3, aabb3};
    ///
    /// let a = Aabb3::from([0.0, 0.0, 0.0, 1.0, 1.0, 1.0]);
    /// let b = Aabb3::from([2.0, -1.0, 0.0, 3.0, 0.0, 2.0]);
    /// assert_eq!(aabb3::from_two_aabbs(a, b), Aabb3::from([0.0, -1.0, 0.0, 3.0, 1.0, 2.0]));
    /// ```
    #[link_name = "bgz_aabb3_from_two_aabbs"]
    pub safe fn from_two_aabbs(a: Aabb3, b: Aabb3) -> Aabb3;

    /// The cube from `p` - `eps` to `p` + `eps`. Any `eps` is taken.
    ///
    /// # Example
    ///
    /// ```
    /// use bagnoszyk::{Aabb3, Vec3, aabb3};
    ///
    /// let p = Vec3::from([3.0, 4.0, 5.0]);
    /// assert_eq!(aabb3::set_as_cube(p, 1.0), Aabb3::from([2.0, 3.0, 4.0, 4.0, 5.0, 6.0]));
    /// ```
    #[link_name = "bgz_aabb3_set_as_cube"]
    pub safe fn set_as_cube(p: Vec3, eps: f32) -> Aabb3;

    /// `b` widened to the low ends `p` - `eps` and the high ends `p` + `eps`, by minimum and
    /// maximum. A NaN is dropped. Any `eps` is taken: with one below 0 the box need not hold `p`.
    ///
    /// # Example
    ///
    /// ```
    /// use bagnoszyk::{Aabb3, Vec3, aabb3};
    ///
    /// let b = Aabb3::from([0.0, 0.0, 0.0, 1.0, 1.0, 1.0]);
    /// let p = Vec3::from([3.0, 0.0, 0.0]);
    /// assert_eq!(aabb3::add_point(b, p, 0.0), Aabb3::from([0.0, 0.0, 0.0, 3.0, 1.0, 1.0]));
    /// ```
    #[link_name = "bgz_aabb3_add_point"]
    pub safe fn add_point(b: Aabb3, p: Vec3, eps: f32) -> Aabb3;

    /// (low + high) * 0.5, by component.
    ///
    /// # Example
    ///
    /// ```
    /// use bagnoszyk::{Aabb3, Vec3, aabb3};
    ///
    /// let b = Aabb3::from([0.0, 0.0, 0.0, 4.0, 2.0, 1.0]);
    /// assert_eq!(aabb3::center(b), Vec3::from([2.0, 1.0, 0.5]));
    /// ```
    #[link_name = "bgz_aabb3_center"]
    pub safe fn center(b: Aabb3) -> Vec3;

    /// high - low, by component: the lengths of the edges.
    ///
    /// # Example
    ///
    /// ```
    /// use bagnoszyk::{Aabb3, Vec3, aabb3};
    ///
    /// let b = Aabb3::from([0.0, 0.0, 0.0, 4.0, 2.0, 1.0]);
    /// assert_eq!(aabb3::size(b), Vec3::from([4.0, 2.0, 1.0]));
    /// ```
    #[link_name = "bgz_aabb3_size"]
    pub safe fn size(b: Aabb3) -> Vec3;

    /// The box with the centre of `b` and edges `s` times as long: the centre's coordinate and, on
    /// either side of it, edge * `s` * 0.5.
    ///
    /// # Example
    ///
    /// ```
    /// use bagnoszyk::{Aabb3, aabb3};
    ///
    /// let b = Aabb3::from([0.0, 0.0, 0.0, 4.0, 2.0, 2.0]);
    /// assert_eq!(aabb3::scale(b, 2.0), Aabb3::from([-2.0, -1.0, -1.0, 6.0, 3.0, 3.0]));
    /// ```
    #[link_name = "bgz_aabb3_scale"]
    pub safe fn scale(b: Aabb3, s: f32) -> Aabb3;

    /// The product of the edges, x times y times z. The edge of a reversed dimension is negative.
    ///
    /// # Example
    ///
    /// ```
    /// use bagnoszyk::{Aabb3, aabb3};
    ///
    /// let b = Aabb3::from([0.0, 0.0, 0.0, 4.0, 2.0, 3.0]);
    /// assert_eq!(aabb3::volume(b), 24.0);
    /// ```
    #[link_name = "bgz_aabb3_volume"]
    pub safe fn volume(b: Aabb3) -> f32;

    /// The longest edge, by comparisons: that of x if it is above that of y, else that of y; and
    /// this if it is above that of z, else that of z. So a NaN in x drops out, one in y drops out
    /// and x with it, and one in z is the answer.
    ///
    /// # Example
    ///
    /// ```
    /// use bagnoszyk::{Aabb3, aabb3};
    ///
    /// let b = Aabb3::from([0.0, 0.0, 0.0, 4.0, 2.0, 3.0]);
    /// assert_eq!(aabb3::max_edge_size(b), 4.0);
    /// ```
    #[link_name = "bgz_aabb3_max_edge_size"]
    pub safe fn max_edge_size(b: Aabb3) -> f32;

    /// Whether `b` is ordered in x, min_x <= max_x. y and z are not looked at.
    ///
    /// # Example
    ///
    /// ```
    /// use bagnoszyk::{Aabb3, aabb3};
    ///
    /// let b = Aabb3::from([0.0, 0.0, 0.0, 4.0, 2.0, 1.0]);
    /// assert_eq!(aabb3::is_active(b), true);
    /// ```
    #[link_name = "bgz_aabb3_is_active"]
    pub safe fn is_active(b: Aabb3) -> bool;

    /// Whether `p` is in `b`, faces included: below no low end and above no high one. A NaN puts
    /// nothing outside: a coordinate or an end that is one does not bound its dimension. For
    /// [`aabb_3::is_include_point`](crate::aabb_3::is_include_point) a NaN is outside.
    ///
    /// # Example
    ///
    /// ```
    /// use bagnoszyk::{Aabb3, Vec3, aabb3};
    ///
    /// let b = Aabb3::from([0.0, 0.0, 0.0, 4.0, 2.0, 1.0]);
    /// let p = Vec3::from([4.0, 1.0, 1.0]);
    /// assert_eq!(aabb3::is_contain(b, p), true);
    /// ```
    #[link_name = "bgz_aabb3_is_contain"]
    pub safe fn is_contain(b: Aabb3, p: Vec3) -> bool;

    /// Whether two boxes meet, faces included: both are ordered in x, and in no dimension the low
    /// end of one is above the high end of the other. A NaN in y or z parts nothing.
    ///
    /// # Example
    ///
    /// ```
    /// use bagnoszyk::{Aabb3, aabb3};
    ///
    /// let a = Aabb3::from([0.0, 0.0, 0.0, 1.0, 1.0, 1.0]);
    /// let b = Aabb3::from([1.0, 1.0, 1.0, 2.0, 2.0, 2.0]);
    /// assert_eq!(aabb3::is_intersect(a, b), true);
    /// ```
    #[link_name = "bgz_aabb3_is_intersect"]
    pub safe fn is_intersect(a: Aabb3, b: Aabb3) -> bool;

    /// The squared distance from `p` to the nearest point of `b`, 0 inside: each coordinate is
    /// raised to the low end and then lowered to the high one, by minimum and maximum, and the
    /// squares of what it moved are summed from 0. In a dimension in which `b` is reversed the
    /// nearest is the high end. A NaN in `p` gives a NaN, and so does an infinite coordinate that
    /// is not moved.
    ///
    /// # Example
    ///
    /// ```
    /// use bagnoszyk::{Aabb3, Vec3, aabb3};
    ///
    /// let b = Aabb3::from([0.0, 0.0, 0.0, 1.0, 1.0, 1.0]);
    /// let p = Vec3::from([3.0, 0.5, 0.0]);
    /// assert_eq!(aabb3::min_sq_dist_to_point3(b, p), 4.0);
    /// ```
    #[link_name = "bgz_aabb3_min_sq_dist_to_point3"]
    pub safe fn min_sq_dist_to_point3(b: Aabb3, p: Vec3) -> f32;
}

mod raw {
    use crate::answers::*;
    use crate::shapes::*;

    unsafe extern "C" {
        #[link_name = "bgz_aabb3_xyz_from_hex_index"]
        pub safe fn xyz_from_hex_index(b: Aabb3, index: usize) -> Point3Answer;

        #[link_name = "bgz_aabb3_is_possible_distance_to_aabb2_smaller_than_threshold"]
        pub safe fn is_possible_distance_to_aabb2_smaller_than_threshold(
            a: Aabb3,
            b: Aabb3,
            threshold: f32,
        ) -> BoolAnswer;

        #[link_name = "bgz_aabb3_count"]
        pub fn count(all: *const f32, all_length: usize) -> usize;

        #[link_name = "bgz_aabb3_from_aabbs"]
        pub fn from_aabbs(all: *const f32, all_length: usize, index: usize) -> Box3Answer;

        #[link_name = "bgz_aabb3_from_slice"]
        pub fn from_slice(s: *const f32, s_length: usize) -> Box3Answer;
    }
}

/// The corner of a number, as hexahedra number them: 0 to 3 are low in z, from the low corner along
/// x and round the face; 4 to 7 are high in z and stand over them.
///
/// # Errors
///
/// [`Refusal::CORNER`] if `index` is above 7.
///
/// # Example
///
/// ```
/// use bagnoszyk::{Aabb3, Vec3, aabb3};
///
/// let b = Aabb3::from([0.0, 0.0, 0.0, 4.0, 2.0, 1.0]);
/// assert_eq!(aabb3::xyz_from_hex_index(b, 6), Ok(Vec3::from([4.0, 2.0, 1.0])));
/// ```
#[inline]
pub fn xyz_from_hex_index(b: Aabb3, index: usize) -> Result<Vec3, Refusal> {
    raw::xyz_from_hex_index(b, index).result()
}

/// Whether two boxes of space may be no further apart than `threshold`: no if in x, y or z the gap
/// between them is above it. The first dimension with a no or a refusal decides, in this order.
/// Ranges that touch or overlap have no gap, whatever `threshold` is; with a NaN threshold no gap
/// is above it.
///
/// # Errors
///
/// [`Refusal::ORDER`] if a dimension is reached in which the range of `a` or of `b` is not low <=
/// high, as with a NaN.
///
/// # Example
///
/// ```
/// use bagnoszyk::{Aabb3, aabb3};
///
/// let a = Aabb3::from([0.0, 0.0, 0.0, 1.0, 1.0, 1.0]);
/// let b = Aabb3::from([3.0, 0.0, 0.0, 4.0, 1.0, 1.0]);
/// assert_eq!(aabb3::is_possible_distance_to_aabb2_smaller_than_threshold(a, b, 1.5), Ok(false));
/// ```
#[inline]
pub fn is_possible_distance_to_aabb2_smaller_than_threshold(
    a: Aabb3,
    b: Aabb3,
    threshold: f32,
) -> Result<bool, Refusal> {
    raw::is_possible_distance_to_aabb2_smaller_than_threshold(a, b, threshold).result()
}

/// How many whole boxes a flat list has: its length / 6, rounded down. Each box is min_x, min_y,
/// min_z, max_x, max_y, max_z.
///
/// # Example
///
/// ```
/// use bagnoszyk::aabb3;
///
/// assert_eq!(aabb3::count(&[0.0, 0.0, 0.0, 1.0, 1.0, 1.0, 2.0]), 1);
/// ```
#[inline]
pub fn count(all: &[f32]) -> usize {
    unsafe {
        // SAFETY: each list is lent for the call alone, by its start and its length.
        raw::count(all.as_ptr(), all.len())
    }
}

/// The box at an index of a flat list, from 0.
///
/// # Errors
///
/// [`Refusal::INDEX`] if `index` is not below [`aabb3::count`](crate::aabb3::count).
///
/// # Example
///
/// ```
/// use bagnoszyk::{Aabb3, aabb3};
///
/// assert_eq!(aabb3::from_aabbs(&[0.0, 0.0, 0.0, 1.0, 1.0, 1.0, 2.0, 2.0, 2.0, 3.0, 3.0, 3.0], 1), Ok(Aabb3::from([2.0, 2.0, 2.0, 3.0, 3.0, 3.0])));
/// ```
#[inline]
pub fn from_aabbs(all: &[f32], index: usize) -> Result<Aabb3, Refusal> {
    let a = unsafe {
        // SAFETY: each list is lent for the call alone, by its start and its length.
        raw::from_aabbs(all.as_ptr(), all.len(), index)
    };
    a.result()
}

/// The first box of a flat list: the one at index 0.
///
/// # Errors
///
/// [`Refusal::INDEX`] if the list has fewer than six floats.
///
/// # Example
///
/// ```
/// use bagnoszyk::{Aabb3, aabb3};
///
/// assert_eq!(aabb3::from_slice(&[0.0, 0.0, 0.0, 1.0, 1.0, 1.0, 2.0]), Ok(Aabb3::from([0.0, 0.0, 0.0, 1.0, 1.0, 1.0])));
/// ```
#[inline]
pub fn from_slice(s: &[f32]) -> Result<Aabb3, Refusal> {
    let a = unsafe {
        // SAFETY: each list is lent for the call alone, by its start and its length.
        raw::from_slice(s.as_ptr(), s.len())
    };
    a.result()
}

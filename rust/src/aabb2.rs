//! Upright boxes: making, changing and measuring them, their pixels and tiles, and flat lists of
//! them.
//!
//! Written by tests/generate from the exported functions bgz_aabb2_..; not to be edited.

use crate::answers;
use crate::answers::Pixels;
use crate::refusal::Refusal;
use crate::shapes::{Aabb2, Mat3, Vec2};

unsafe extern "C" {
    /// The box from the minimum of `p` - `radius` and `q` - `radius` to the maximum of `p` +
    /// `radius` and `q` + `radius`, by component. Any radius is taken: one below 0 can reverse the
    /// box.
    ///
    /// # Example
    ///
    /// ```
    /// use bagnoszyk::{Aabb2, Vec2, aabb2};
    ///
    /// let p = Vec2 { x: 0.0, y: 0.0 };
    /// let q = Vec2 { x: 3.0, y: 1.0 };
    /// assert_eq!(aabb2::from_two_points(p, q, 1.0), Aabb2::from([-1.0, -1.0, 4.0, 2.0]));
    /// ```
    #[link_name = "bgz_aabb2_from_two_points"]
    pub safe fn from_two_points(p: Vec2, q: Vec2, radius: f32) -> Aabb2;

    /// The box around two boxes: the minimum of the low corners and the maximum of the high ones,
    /// by component.
    ///
    /// # Example
    ///
    /// ```
    /// use bagnoszyk::{Aabb2, aabb2};
    ///
    /// let a = Aabb2::from([0.0, 0.0, 1.0, 1.0]);
    /// let b = Aabb2::from([2.0, -1.0, 3.0, 0.0]);
    /// assert_eq!(aabb2::from_two_aabbs(a, b), Aabb2::from([0.0, -1.0, 3.0, 1.0]));
    /// ```
    #[link_name = "bgz_aabb2_from_two_aabbs"]
    pub safe fn from_two_aabbs(a: Aabb2, b: Aabb2) -> Aabb2;

    /// The same as [`aabb::center`](crate::aabb::center).
    ///
    /// # Example
    ///
    /// ```
    /// use bagnoszyk::{Aabb2, Vec2, aabb2};
    ///
    /// let b = Aabb2::from([0.0, 0.0, 4.0, 2.0]);
    /// assert_eq!(aabb2::center(b), Vec2 { x: 2.0, y: 1.0 });
    /// ```
    #[link_name = "bgz_aabb2_center"]
    pub safe fn center(b: Aabb2) -> Vec2;

    /// The longer of the two sides, high - low. A NaN is dropped, as by maximum.
    ///
    /// # Example
    ///
    /// ```
    /// use bagnoszyk::{Aabb2, aabb2};
    ///
    /// let b = Aabb2::from([0.0, 0.0, 4.0, 2.0]);
    /// assert_eq!(aabb2::max_edge_size(b), 4.0);
    /// ```
    #[link_name = "bgz_aabb2_max_edge_size"]
    pub safe fn max_edge_size(b: Aabb2) -> f32;

    /// The transform that scales both axes by 1 / (the longer side) and takes the centre of `b` to
    /// (0.5, 0.5). It takes `b` into the unit square, but for rounding, where `b` is not reversed
    /// and the nine numbers are finite. A longer side of 0 gives infinities or NaN.
    ///
    /// # Example
    ///
    /// ```
    /// use bagnoszyk::{Aabb2, Mat3, aabb2};
    ///
    /// let b = Aabb2::from([0.0, 0.0, 4.0, 2.0]);
    /// assert_eq!(aabb2::to_transformation_world2unit_ortho_preserve_asp(b), Mat3::from([0.25, 0.0, 0.0, 0.0, 0.25, 0.0, 0.0, 0.25, 1.0]));
    /// ```
    #[link_name = "bgz_aabb2_to_transformation_world2unit_ortho_preserve_asp"]
    pub safe fn to_transformation_world2unit_ortho_preserve_asp(b: Aabb2) -> Mat3;

    /// The same as [`aabb::is_include_point`](crate::aabb::is_include_point).
    ///
    /// # Example
    ///
    /// ```
    /// use bagnoszyk::{Aabb2, Vec2, aabb2};
    ///
    /// let b = Aabb2::from([0.0, 0.0, 4.0, 2.0]);
    /// let p = Vec2 { x: 5.0, y: 1.0 };
    /// assert_eq!(aabb2::is_include_point2(b, p), false);
    /// ```
    #[link_name = "bgz_aabb2_is_include_point2"]
    pub safe fn is_include_point2(b: Aabb2, p: Vec2) -> bool;

    /// Whether the square from `p` - `radius` to `p` + `radius` overlaps `b`: in x and in y, as
    /// computed, `radius` is above how far `p` lies from the middle of `b`, less half the length of
    /// `b`. Touching is not overlapping. A dimension in which that is a NaN parts nothing; where it
    /// is one in both, or `radius` is one, the answer is false.
    ///
    /// # Example
    ///
    /// ```
    /// use bagnoszyk::{Aabb2, Vec2, aabb2};
    ///
    /// let b = Aabb2::from([0.0, 0.0, 4.0, 2.0]);
    /// let p = Vec2 { x: 5.0, y: 1.0 };
    /// assert_eq!(aabb2::is_intersect_square(b, p, 2.0), true);
    /// ```
    #[link_name = "bgz_aabb2_is_intersect_square"]
    pub safe fn is_intersect_square(b: Aabb2, p: Vec2, radius: f32) -> bool;

    /// The signed distance from `p` to the edge of `b`: positive outside, negative inside, but for
    /// rounding, if `b` is not reversed and the sum of its corners is finite in x and in y. A NaN
    /// is dropped, as by maximum.
    ///
    /// # Example
    ///
    /// ```
    /// use bagnoszyk::{Aabb2, Vec2, aabb2};
    ///
    /// let b = Aabb2::from([0.0, 0.0, 4.0, 2.0]);
    /// let p = Vec2 { x: 7.0, y: 6.0 };
    /// assert_eq!(aabb2::sdf(b, p), 5.0);
    /// ```
    #[link_name = "bgz_aabb2_sdf"]
    pub safe fn sdf(b: Aabb2, p: Vec2) -> f32;

    /// `b` with its sides `s` times as long, about its centre. Ends are rounded, and may overflow.
    /// A negative `s` exchanges the low and the high ends.
    ///
    /// # Example
    ///
    /// ```
    /// use bagnoszyk::{Aabb2, aabb2};
    ///
    /// let b = Aabb2::from([0.0, 0.0, 4.0, 2.0]);
    /// assert_eq!(aabb2::scale(b, 2.0), Aabb2::from([-2.0, -1.0, 6.0, 3.0]));
    /// ```
    #[link_name = "bgz_aabb2_scale"]
    pub safe fn scale(b: Aabb2, s: f32) -> Aabb2;

    /// `b` moved by `t`.
    ///
    /// # Example
    ///
    /// ```
    /// use bagnoszyk::{Aabb2, Vec2, aabb2};
    ///
    /// let b = Aabb2::from([0.0, 0.0, 4.0, 2.0]);
    /// let t = Vec2 { x: 1.0, y: 1.0 };
    /// assert_eq!(aabb2::translate(b, t), Aabb2::from([1.0, 1.0, 5.0, 3.0]));
    /// ```
    #[link_name = "bgz_aabb2_translate"]
    pub safe fn translate(b: Aabb2, t: Vec2) -> Aabb2;
}

mod raw {
    use crate::answers::*;
    use crate::shapes::*;

    unsafe extern "C" {
        #[link_name = "bgz_aabb2_from_point"]
        pub safe fn from_point(p: Vec2, radius: f32) -> BoxAnswer;

        #[link_name = "bgz_aabb2_add_point"]
        pub safe fn add_point(b: Aabb2, p: Vec2, radius: f32) -> BoxAnswer;

        #[link_name = "bgz_aabb2_rasterize"]
        pub safe fn rasterize(b: Aabb2, width: usize, height: usize) -> PixelsAnswer;

        #[link_name = "bgz_aabb2_transform_homogeneous"]
        pub safe fn transform_homogeneous(b: Aabb2, m: Mat3) -> BoxAnswer;

        #[link_name = "bgz_aabb2_nearest_point2"]
        pub safe fn nearest_point2(b: Aabb2, p: Vec2) -> PointAnswer;

        #[link_name = "bgz_aabb2_overlapping_tiles"]
        pub fn overlapping_tiles(
            b: Aabb2,
            size: usize,
            shape_width: usize,
            shape_height: usize,
            out: *mut u32,
            out_length: usize,
        ) -> CountAnswer;

        #[link_name = "bgz_aabb2_count"]
        pub fn count(all: *const f32, all_length: usize) -> usize;

        #[link_name = "bgz_aabb2_from_aabbs"]
        pub fn from_aabbs(all: *const f32, all_length: usize, index: usize) -> BoxAnswer;

        #[link_name = "bgz_aabb2_from_slice"]
        pub fn from_slice(s: *const f32, s_length: usize) -> BoxAnswer;

        #[link_name = "bgz_aabb2_add_point_lent"]
        pub safe fn add_point_lent(b: &mut Aabb2, p: Vec2, radius: f32) -> u32;
    }
}

/// The box from `p` - `radius` to `p` + `radius`.
///
/// # Errors
///
/// [`Refusal::RADIUS`] if `radius` is not at least 0, as with a NaN.
///
/// # Example
///
/// ```
/// use bagnoszyk::{Aabb2, Vec2, aabb2};
///
/// let p = Vec2 { x: 3.0, y: 4.0 };
/// assert_eq!(aabb2::from_point(p, 1.0), Ok(Aabb2::from([2.0, 3.0, 4.0, 5.0])));
/// ```
#[inline]
pub fn from_point(p: Vec2, radius: f32) -> Result<Aabb2, Refusal> {
    raw::from_point(p, radius).result()
}

/// `b` widened to hold the box from `p` - `radius` to `p` + `radius`, by minimum and maximum. A NaN
/// is dropped.
///
/// # Errors
///
/// [`Refusal::RADIUS`] if `radius` is not at least 0, as with a NaN.
///
/// # Example
///
/// ```
/// use bagnoszyk::{Aabb2, Vec2, aabb2};
///
/// let b = Aabb2::from([0.0, 0.0, 1.0, 1.0]);
/// let p = Vec2 { x: 3.0, y: 0.0 };
/// assert_eq!(aabb2::add_point(b, p, 0.0), Ok(Aabb2::from([0.0, 0.0, 3.0, 1.0])));
/// ```
#[inline]
pub fn add_point(b: Aabb2, p: Vec2, radius: f32) -> Result<Aabb2, Refusal> {
    raw::add_point(b, p, radius).result()
}

/// The pixels of an image of `width` by `height` whose centres lie in `b`, low edge in and high
/// edge out. x0 and y0 are not held to the image: where x0 is not below x1, or y0 not below y1,
/// there are none. A NaN at a low end counts as 0, and one at a high end as the whole side. A side
/// may be 0.
///
/// # Errors
///
/// [`Refusal::SIZE`] if `width` or `height` is above 16,384.
///
/// # Example
///
/// ```
/// use bagnoszyk::{Aabb2, Pixels, aabb2};
///
/// let b = Aabb2::from([0.25, 0.25, 2.5, 1.75]);
/// assert_eq!(aabb2::rasterize(b, 8, 8), Ok(Pixels { x0: 0, y0: 0, x1: 2, y1: 2 }));
/// ```
#[inline]
pub fn rasterize(b: Aabb2, width: usize, height: usize) -> Result<Pixels, Refusal> {
    raw::rasterize(b, width, height).result()
}

/// The box around the images of the four corners of `b` under `m`. A coordinate that is a NaN is
/// left out. Where all four are, the box goes from +infinity to -infinity in that dimension.
///
/// # Errors
///
/// [`Refusal::NO_IMAGE`] if a corner has none: see
/// [`mat3::transform_homogeneous`](crate::mat3::transform_homogeneous).
///
/// # Example
///
/// ```
/// use bagnoszyk::{Aabb2, Mat3, aabb2};
///
/// let b = Aabb2::from([0.0, 0.0, 1.0, 1.0]);
/// let m = Mat3::from([2.0, 0.0, 0.0, 0.0, 2.0, 0.0, 1.0, 0.0, 1.0]);
/// assert_eq!(aabb2::transform_homogeneous(b, m), Ok(Aabb2::from([1.0, 0.0, 3.0, 2.0])));
/// ```
#[inline]
pub fn transform_homogeneous(b: Aabb2, m: Mat3) -> Result<Aabb2, Refusal> {
    raw::transform_homogeneous(b, m).result()
}

/// The point of `b` that is nearest to `p`; `p` itself if it is in `b`. A NaN in `p` is kept.
///
/// # Errors
///
/// [`Refusal::ORDER`] if `b` is not low <= high in x, then in y, as with a NaN.
///
/// # Example
///
/// ```
/// use bagnoszyk::{Aabb2, Vec2, aabb2};
///
/// let b = Aabb2::from([0.0, 0.0, 4.0, 2.0]);
/// let p = Vec2 { x: 6.0, y: 1.0 };
/// assert_eq!(aabb2::nearest_point2(b, p), Ok(Vec2 { x: 4.0, y: 1.0 }));
/// ```
#[inline]
pub fn nearest_point2(b: Aabb2, p: Vec2) -> Result<Vec2, Refusal> {
    raw::nearest_point2(b, p).result()
}

/// The tiles that `b` overlaps, on a sheet of `shape_width` by `shape_height` square tiles of side
/// `size`. Columns go from floor(min_x / `size`) up to and with floor(max_x / `size`), each
/// quotient rounded, and rows likewise; those off the sheet are skipped. A tile's number is row *
/// `shape_width` + column. A tile holds its low edges and not its high ones, so a box that ends on
/// a tile's high edge has the next tile too, if the sheet has one. Where the box is not reversed
/// and each of its coordinates is zero or at least 2^-100 in size, the tiles are the smallest set
/// of the sheet's tiles that covers the box: each point of it that has f32 coordinates and lies on
/// the sheet. A box reversed in x has a column only if both ends lie in it, and likewise a row in
/// y. A side of the shape may be 0.
///
/// Writes the numbers, rising, to the start of `out` and answers how many; 0 is an answer too.
///
/// # Errors
///
/// [`Refusal::SIZE`] if `size` is 0 or above 4,096, or `shape_width` or `shape_height` is above
/// 16,384; [`Refusal::COORDINATE`] if a coordinate of `b` is not finite or is above 1,048,576 in
/// size; [`Refusal::ROOM`] if `out` is shorter than the tiles.
///
/// # Example
///
/// ```
/// use bagnoszyk::{Aabb2, aabb2};
///
/// let b = Aabb2::from([5.0, 5.0, 25.0, 12.0]);
/// let mut out: [u32; 8] = [0; 8];
/// assert_eq!(aabb2::overlapping_tiles(b, 10, 4, 4, &mut out), Ok(6));
/// assert_eq!(out, [0, 1, 2, 4, 5, 6, 0, 0]);
/// ```
#[inline]
pub fn overlapping_tiles(
    b: Aabb2,
    size: usize,
    shape_width: usize,
    shape_height: usize,
    out: &mut [u32],
) -> Result<usize, Refusal> {
    let a = unsafe {
        // SAFETY: each list is lent for the call alone, by its start and its length.
        raw::overlapping_tiles(b, size, shape_width, shape_height, out.as_mut_ptr(), out.len())
    };
    a.result()
}

/// How many whole boxes a flat list has: its length / 4, rounded down. Each box is min_x, min_y,
/// max_x, max_y.
///
/// # Example
///
/// ```
/// use bagnoszyk::aabb2;
///
/// assert_eq!(aabb2::count(&[0.0, 0.0, 1.0, 1.0, 2.0]), 1);
/// ```
#[inline]
pub fn count(all: &[f32]) -> usize {
    unsafe {
        // SAFETY: each list is lent for the call alone, by its start and its length.
        raw::count(all.as_ptr(), all.len())
    }
}

/// The box at an index of a flat list, from 0.
///
/// # Errors
///
/// [`Refusal::INDEX`] if `index` is not below [`aabb2::count`](crate::aabb2::count).
///
/// # Example
///
/// ```
/// use bagnoszyk::{Aabb2, aabb2};
///
/// assert_eq!(aabb2::from_aabbs(&[0.0, 0.0, 1.0, 1.0, 2.0, 2.0, 3.0, 3.0], 1), Ok(Aabb2::from([2.0, 2.0, 3.0, 3.0])));
/// ```
#[inline]
pub fn from_aabbs(all: &[f32], index: usize) -> Result<Aabb2, Refusal> {
    let a = unsafe {
        // SAFETY: each list is lent for the call alone, by its start and its length.
        raw::from_aabbs(all.as_ptr(), all.len(), index)
    };
    a.result()
}

/// The first box of a flat list.
///
/// # Errors
///
/// [`Refusal::INDEX`] if the list has fewer than 4 floats.
///
/// # Example
///
/// ```
/// use bagnoszyk::{Aabb2, aabb2};
///
/// assert_eq!(aabb2::from_slice(&[0.0, 0.0, 1.0, 1.0]), Ok(Aabb2::from([0.0, 0.0, 1.0, 1.0])));
/// ```
#[inline]
pub fn from_slice(s: &[f32]) -> Result<Aabb2, Refusal> {
    let a = unsafe {
        // SAFETY: each list is lent for the call alone, by its start and its length.
        raw::from_slice(s.as_ptr(), s.len())
    };
    a.result()
}

/// `b` widened where it stands to hold the box from `p` - `radius` to `p` + `radius`. A NaN is
/// dropped, as by minimum and maximum.
///
/// # Errors
///
/// [`Refusal::RADIUS`] if `radius` is not at least 0, as with a NaN; `b` stays as it was.
///
/// # Example
///
/// ```
/// use bagnoszyk::{Aabb2, Vec2, aabb2};
///
/// let mut b = Aabb2::from([0.0, 0.0, 1.0, 1.0]);
/// let p = Vec2 { x: 3.0, y: 0.0 };
/// assert_eq!(aabb2::add_point_lent(&mut b, p, 0.0), Ok(()));
/// assert_eq!(b, Aabb2::from([0.0, 0.0, 3.0, 1.0]));
/// ```
#[inline]
pub fn add_point_lent(b: &mut Aabb2, p: Vec2, radius: f32) -> Result<(), Refusal> {
    answers::result(raw::add_point_lent(b, p, radius), ())
}

//! Edges, and pen strokes along them.
//!
//! Written by tests/generate from the exported functions bgz_edge2_..; not to be edited.

use crate::refusal::{Refusal, RefusalAt};
use crate::shapes::{Aabb2, OnEdge, Vec2};

unsafe extern "C" {
    /// The length of the edge from `s` to `e`.
    ///
    /// # Example
    ///
    /// ```
    /// use bagnoszyk::{Vec2, edge2};
    ///
    /// let s = Vec2 { x: 0.0, y: 0.0 };
    /// let e = Vec2 { x: 3.0, y: 4.0 };
    /// assert_eq!(edge2::length(s, e), 5.0);
    /// ```
    #[link_name = "bgz_edge2_length"]
    pub safe fn length(s: Vec2, e: Vec2) -> f32;

    /// The squared length of the edge from `s` to `e`.
    ///
    /// # Example
    ///
    /// ```
    /// use bagnoszyk::{Vec2, edge2};
    ///
    /// let s = Vec2 { x: 0.0, y: 0.0 };
    /// let e = Vec2 { x: 3.0, y: 4.0 };
    /// assert_eq!(edge2::squared_length(s, e), 25.0);
    /// ```
    #[link_name = "bgz_edge2_squared_length"]
    pub safe fn squared_length(s: Vec2, e: Vec2) -> f32;

    /// The direction from `s` to `e`: `e` - `s` times 1 / length. An edge whose computed length is
    /// 0 gives infinities or NaN, and one whose length overflows zeros or NaN.
    ///
    /// # Example
    ///
    /// ```
    /// use bagnoszyk::{Vec2, edge2};
    ///
    /// let s = Vec2 { x: 0.0, y: 0.0 };
    /// let e = Vec2 { x: 0.0, y: 2.0 };
    /// assert_eq!(edge2::unit_edge_vector(s, e), Vec2 { x: 0.0, y: 1.0 });
    /// ```
    #[link_name = "bgz_edge2_unit_edge_vector"]
    pub safe fn unit_edge_vector(s: Vec2, e: Vec2) -> Vec2;

    /// (1 - `ratio`) * `p0` + `ratio` * `p1`. With finite ends it is `p0` at 0 and `p1` at 1, but
    /// for the sign of a zero. Any ratio is taken.
    ///
    /// # Example
    ///
    /// ```
    /// use bagnoszyk::{Vec2, edge2};
    ///
    /// let p0 = Vec2 { x: 0.0, y: 0.0 };
    /// let p1 = Vec2 { x: 4.0, y: 8.0 };
    /// assert_eq!(edge2::position_from_ratio(p0, p1, 0.25), Vec2 { x: 1.0, y: 2.0 });
    /// ```
    #[link_name = "bgz_edge2_position_from_ratio"]
    pub safe fn position_from_ratio(p0: Vec2, p1: Vec2, ratio: f32) -> Vec2;

    /// The dot product of `pe` - `ps` and `q`, divided by the length of `pe` - `ps`. This is
    /// del-geo-core's formula: `q` is measured from the origin and not from `ps`, and the result is
    /// a length and not a ratio.
    ///
    /// # Example
    ///
    /// ```
    /// use bagnoszyk::{Vec2, edge2};
    ///
    /// let ps = Vec2 { x: 0.0, y: 0.0 };
    /// let pe = Vec2 { x: 4.0, y: 0.0 };
    /// let q = Vec2 { x: 3.0, y: 1.0 };
    /// assert_eq!(edge2::ratio_from_position(ps, pe, q), 3.0);
    /// ```
    #[link_name = "bgz_edge2_ratio_from_position"]
    pub safe fn ratio_from_position(ps: Vec2, pe: Vec2, q: Vec2) -> f32;

    /// Whether the upright boxes of two edges come as near as a slack, which is 2^-23 times the sum
    /// of both edges' extents in x and y. No exactly if in x or in y the high end of one, with the
    /// slack added, is below the low end of the other, as computed. Where the answer is no, the
    /// edges do not cross. A NaN or an infinite slack parts nothing.
    ///
    /// # Example
    ///
    /// ```
    /// use bagnoszyk::{Vec2, edge2};
    ///
    /// let s0 = Vec2 { x: 0.0, y: 0.0 };
    /// let e0 = Vec2 { x: 1.0, y: 1.0 };
    /// let s1 = Vec2 { x: 2.0, y: 2.0 };
    /// let e1 = Vec2 { x: 3.0, y: 3.0 };
    /// assert_eq!(edge2::culling_intersection(s0, e0, s1, e1), false);
    /// ```
    #[link_name = "bgz_edge2_culling_intersection"]
    pub safe fn culling_intersection(s0: Vec2, e0: Vec2, s1: Vec2, e1: Vec2) -> bool;

    /// The point of the edge from `s` to `e` that is nearest to (0, 0), with its ratio, but for
    /// rounding. An edge whose computed squared length is 0 gives its midpoint, with ratio 0.5.
    /// Where that squared length overflows, the point may be a NaN or another than the nearest.
    ///
    /// # Example
    ///
    /// ```
    /// use bagnoszyk::{OnEdge, Vec2, edge2};
    ///
    /// let s = Vec2 { x: -1.0, y: 1.0 };
    /// let e = Vec2 { x: 1.0, y: 1.0 };
    /// assert_eq!(edge2::nearest_origin(s, e), OnEdge { ratio: 0.5, point: Vec2 { x: 0.0, y: 1.0 } });
    /// ```
    #[link_name = "bgz_edge2_nearest_origin"]
    pub safe fn nearest_origin(s: Vec2, e: Vec2) -> OnEdge;

    /// The point of the edge from `s` to `e` that is nearest to `p`, with its ratio, but for
    /// rounding: it is what [`edge2::nearest_origin`](crate::edge2::nearest_origin) gives for the
    /// edge from `s` - `p` to `e` - `p`, with `p` added. These differences are rounded first, so
    /// for a `p` that is far from a short edge the point may lie off the edge: (10, 10), (11, 10),
    /// (1e8, 10) gives (0.5, (8, 10)).
    ///
    /// # Example
    ///
    /// ```
    /// use bagnoszyk::{OnEdge, Vec2, edge2};
    ///
    /// let s = Vec2 { x: 0.0, y: 0.0 };
    /// let e = Vec2 { x: 4.0, y: 0.0 };
    /// let p = Vec2 { x: 1.0, y: 5.0 };
    /// assert_eq!(edge2::nearest_to_point(s, e, p), OnEdge { ratio: 0.25, point: Vec2 { x: 1.0, y: 0.0 } });
    /// ```
    #[link_name = "bgz_edge2_nearest_to_point"]
    pub safe fn nearest_to_point(s: Vec2, e: Vec2, p: Vec2) -> OnEdge;
}

mod raw {
    use crate::answers::*;
    use crate::shapes::*;

    unsafe extern "C" {
        #[link_name = "bgz_edge2_intersection_length_against_aabb2"]
        pub safe fn intersection_length_against_aabb2(s: Vec2, e: Vec2, b: Aabb2) -> FloatAnswer;

        #[link_name = "bgz_edge2_ink"]
        pub safe fn ink(p0: Vec2, p1: Vec2, b: Aabb2) -> InkAnswer;

        #[link_name = "bgz_edge2_overlapping_pixels_dda"]
        pub fn overlapping_pixels_dda(
            width: usize,
            height: usize,
            p0: Vec2,
            p1: Vec2,
            list: *mut u32,
            list_length: usize,
        ) -> CountAnswer;

        #[link_name = "bgz_edge2_pixels_inside"]
        pub fn pixels_inside(
            width: usize,
            height: usize,
            p0: Vec2,
            p1: Vec2,
            list: *mut u32,
            list_length: usize,
        ) -> CountAnswer;

        #[link_name = "bgz_edge2_pixels_bound"]
        pub safe fn pixels_bound(width: usize, height: usize, p0: Vec2, p1: Vec2) -> CountAnswer;
    }
}

/// The length of the edge from `s` to `e` in the box `b`, as del-geo-core takes it: the diagonal of
/// what the box's range and the range between the ends share in x and in y. 0 if they share nothing
/// in x, or nothing in y. It is the exact length only where the edge runs from corner to corner of
/// what is shared: it may be above 0 for an edge that misses the box, and is 0 for one that only
/// runs along an edge of the box. Where a coordinate of one end is a NaN, the other end's counts
/// for both.
///
/// # Errors
///
/// [`Refusal::ORDER`] if in x the box is not low <= high, as with a NaN, or both ends are NaN;
/// then, unless x shares nothing, the same in y.
///
/// # Example
///
/// ```
/// use bagnoszyk::{Aabb2, Vec2, edge2};
///
/// let s = Vec2 { x: 0.0, y: 0.0 };
/// let e = Vec2 { x: 3.0, y: 4.0 };
/// let b = Aabb2::from([0.0, 0.0, 3.0, 4.0]);
/// assert_eq!(edge2::intersection_length_against_aabb2(s, e, b), Ok(5.0));
/// ```
#[inline]
pub fn intersection_length_against_aabb2(s: Vec2, e: Vec2, b: Aabb2) -> Result<f32, Refusal> {
    raw::intersection_length_against_aabb2(s, e, b).result()
}

/// The ink that the stroke from `p0` to `p1` leaves in the box `b`: the length of what it draws
/// there. The stroke's line is clipped against the box, as by
/// [`aabb::intersections_against_line`](crate::aabb::intersections_against_line) with the origin
/// `p0` and the direction `p1` - `p0`. The interval is bounded to 0..1. The ink is the
/// [`edge2::length`](crate::edge2::length) between the positions that
/// [`edge2::position_from_ratio`](crate::edge2::position_from_ratio) gives for the interval's two
/// ends. It is 0 if the line misses the box or the bounding leaves nothing. It is finite and not
/// below 0. With both ends in the box, edges included, it is exactly the stroke's
/// [`edge2::length`](crate::edge2::length), with no further rounding. With both ends beyond one
/// edge of the box it is 0. Equal ends are not refused: their ink is 0. Otherwise the two positions
/// are rounded, so that the ink may differ from the exact length, and may be above the stroke's
/// own. No bound on this is proved. The most that a search by running found is 0.0493 from the
/// exact length, for (-65304.58, -64553.074), (64146.25, 65250.32), (-65536, -31735.12, 65536,
/// 61723.89), and 1/64 above the stroke's [`edge2::length`](crate::edge2::length), for (-64281.117,
/// 35206.668), (64216.21, 62848.684), (-64281.113, 0, 65536, 65536). Coordinates half as large
/// halve both.
///
/// # Errors
///
/// [`Refusal::NOT_FINITE`] if of the coordinates `p0.x`, `p0.y`, `p1.x`, `p1.y` the first that
/// offends is not finite, [`Refusal::COORDINATE`] if it is above 65,536 in size; then
/// [`Refusal::ORDER`] if in x the box is not low <= high, as with a NaN, then the same in y.
///
/// Place: that of [`edge2::overlapping_pixels_dda`](crate::edge2::overlapping_pixels_dda).
///
/// # Example
///
/// ```
/// use bagnoszyk::{Aabb2, Vec2, edge2};
///
/// let p0 = Vec2 { x: 0.0, y: 0.0 };
/// let p1 = Vec2 { x: 4.0, y: 3.0 };
/// let b = Aabb2::from([0.0, 0.0, 2.0, 3.0]);
/// assert_eq!(edge2::ink(p0, p1, b), Ok(2.5));
/// ```
#[inline]
pub fn ink(p0: Vec2, p1: Vec2, b: Aabb2) -> Result<f32, RefusalAt> {
    raw::ink(p0, p1, b).result_at(&[Refusal::COORDINATE, Refusal::NOT_FINITE])
}

/// The pixels along the stroke from `p0` to `p1`, in an image of `width` by `height` pixels; a side
/// may be 0. They are the pixels of positions a step apart: one that the stroke only crosses
/// between two positions is left out. A walk starts at `p0`. Each step adds the difference of the
/// ends divided by the larger absolute difference, signs kept. The walk goes on while x and y lie
/// within the ends' ranges, widened by 2^-23 and rounded. Each position in the image enters row *
/// `width` + column. The first position outside the ranges enters likewise, as a closing entry:
/// there is always one, and it is the last. A negative coordinate counts as 0 there. The closing
/// entry may name a pixel of the image that the stroke does not come to. It may also be the pixel
/// of `p1`: (0.5, 0.5), (3.5, 2.5) in 8 by 8 gives 0, 9, 10 and the closing entry 19, in which `p1`
/// lies. For each step is rounded, and the errors add up: the walk can leave the ranges long before
/// `p1`, or end in another row or column than `p1`. From (0.5, 16000) to (15000.5, 16009) in 16384
/// by 16384 it ends in column 9216, and from (0.5, 16000) to (15000.5, 16006) it stays in row
/// 16000.
///
/// Writes the entries to the start of `list` and answers how many: never more than
/// [`edge2::pixels_bound`](crate::edge2::pixels_bound) answers, so a list of that length is never
/// too short.
///
/// # Errors
///
/// [`Refusal::SIZE`] if `width` or `height` is above 16,384; of the coordinates `p0.x`, `p0.y`,
/// `p1.x`, `p1.y` the first that offends decides: [`Refusal::NOT_FINITE`] if it is not finite,
/// [`Refusal::COORDINATE`] if it is above 65,536 in size; [`Refusal::SAME_ENDS`] if `p0` equals
/// `p1`; [`Refusal::ROOM`] if `list` is shorter than the entries.
///
/// Place: [`Refusal::NOT_FINITE`] and [`Refusal::COORDINATE`] tell which coordinate, 0 to 3 in that
/// order; the others tell none.
///
/// # Example
///
/// ```
/// use bagnoszyk::{Vec2, edge2};
///
/// let p0 = Vec2 { x: 1.5, y: 1.5 };
/// let p1 = Vec2 { x: 3.5, y: 1.5 };
/// let mut list: [u32; 6] = [0; 6];
/// assert_eq!(edge2::overlapping_pixels_dda(8, 4, p0, p1, &mut list), Ok(4));
/// assert_eq!(list, [9, 10, 11, 12, 0, 0]);
/// ```
#[inline]
pub fn overlapping_pixels_dda(
    width: usize,
    height: usize,
    p0: Vec2,
    p1: Vec2,
    list: &mut [u32],
) -> Result<usize, RefusalAt> {
    let a = unsafe {
        // SAFETY: each list is lent for the call alone, by its start and its length.
        raw::overlapping_pixels_dda(width, height, p0, p1, list.as_mut_ptr(), list.len())
    };
    a.result_at(&[Refusal::COORDINATE, Refusal::NOT_FINITE])
}

/// The pixels along the stroke from `p0` to `p1`, in an image of `width` by `height` pixels; a side
/// may be 0. They are the entries of
/// [`edge2::overlapping_pixels_dda`](crate::edge2::overlapping_pixels_dda) without the closing one.
/// Each is row * `width` + column of a position of the walk that lies in the image: the row is
/// below `height` and the column below `width`. The last pixels before `p1`, that of `p1` among
/// them, may be missing, or lie in another row or column, since the walk's rounding adds up: (0.5,
/// 0.5), (3.5, 2.5) in 8 by 8 gives 0, 9, 10, and not 19, in which `p1` lies. How far that goes for
/// a long stroke stands with
/// [`edge2::overlapping_pixels_dda`](crate::edge2::overlapping_pixels_dda).
///
/// Writes the entries to the start of `list` and answers how many: always fewer than
/// [`edge2::pixels_bound`](crate::edge2::pixels_bound) answers, so a list that is shorter than that
/// by one is never too short.
///
/// # Errors
///
/// [`Refusal::SIZE`] if `width` or `height` is above 16,384; of the coordinates `p0.x`, `p0.y`,
/// `p1.x`, `p1.y` the first that offends decides: [`Refusal::NOT_FINITE`] if it is not finite,
/// [`Refusal::COORDINATE`] if it is above 65,536 in size; [`Refusal::SAME_ENDS`] if `p0` equals
/// `p1`; [`Refusal::ROOM`] if `list` is shorter than the entries.
///
/// Place: that of [`edge2::overlapping_pixels_dda`](crate::edge2::overlapping_pixels_dda).
///
/// # Example
///
/// ```
/// use bagnoszyk::{Vec2, edge2};
///
/// let p0 = Vec2 { x: 1.5, y: 1.5 };
/// let p1 = Vec2 { x: 3.5, y: 1.5 };
/// let mut list: [u32; 6] = [0; 6];
/// assert_eq!(edge2::pixels_inside(8, 4, p0, p1, &mut list), Ok(3));
/// assert_eq!(list, [9, 10, 11, 0, 0, 0]);
/// ```
#[inline]
pub fn pixels_inside(
    width: usize,
    height: usize,
    p0: Vec2,
    p1: Vec2,
    list: &mut [u32],
) -> Result<usize, RefusalAt> {
    let a = unsafe {
        // SAFETY: each list is lent for the call alone, by its start and its length.
        raw::pixels_inside(width, height, p0, p1, list.as_mut_ptr(), list.len())
    };
    a.result_at(&[Refusal::COORDINATE, Refusal::NOT_FINITE])
}

/// How many entries the stroke from `p0` to `p1` makes at most in an image of `width` by `height`
/// pixels, the closing one among them. It is 2 * D + 2, or one more than the longer of `width` and
/// `height` if that is less. D is the larger of the exact differences between the ends in x and in
/// y, not as floats round them, then rounded up to a whole number. A list of this length is never
/// too short for [`edge2::overlapping_pixels_dda`](crate::edge2::overlapping_pixels_dda). One that
/// is shorter by one is never too short for [`edge2::pixels_inside`](crate::edge2::pixels_inside).
///
/// # Errors
///
/// [`Refusal::SIZE`] if `width` or `height` is above 16,384; of the coordinates `p0.x`, `p0.y`,
/// `p1.x`, `p1.y` the first that offends decides: [`Refusal::NOT_FINITE`] if it is not finite,
/// [`Refusal::COORDINATE`] if it is above 65,536 in size; [`Refusal::SAME_ENDS`] if `p0` equals
/// `p1`.
///
/// Place: that of [`edge2::overlapping_pixels_dda`](crate::edge2::overlapping_pixels_dda).
///
/// # Example
///
/// ```
/// use bagnoszyk::{Vec2, edge2};
///
/// let p0 = Vec2 { x: 0.0, y: 0.0 };
/// let p1 = Vec2 { x: 2.5, y: 1.0 };
/// assert_eq!(edge2::pixels_bound(64, 64, p0, p1), Ok(8));
/// ```
#[inline]
pub fn pixels_bound(width: usize, height: usize, p0: Vec2, p1: Vec2) -> Result<usize, RefusalAt> {
    raw::pixels_bound(width, height, p0, p1).result_at(&[Refusal::COORDINATE, Refusal::NOT_FINITE])
}

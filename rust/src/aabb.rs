//! Upright boxes: clipping lines, and what is inside.
//!
//! Written by tests/generate from the exported functions bgz_aabb_..; not to be edited.

use crate::answers::Interval;
use crate::refusal::Refusal;
use crate::shapes::{Aabb2, Vec2};

unsafe extern "C" {
    /// Whether `p` is in `b`, edges included. With a NaN in `p` or in `b` it is not.
    ///
    /// # Example
    ///
    /// ```
    /// use bagnoszyk::{Aabb2, Vec2, aabb};
    ///
    /// let b = Aabb2::from([0.0, 0.0, 4.0, 2.0]);
    /// let p = Vec2 { x: 4.0, y: 1.0 };
    /// assert_eq!(aabb::is_include_point(b, p), true);
    /// ```
    #[link_name = "bgz_aabb_is_include_point"]
    pub safe fn is_include_point(b: Aabb2, p: Vec2) -> bool;

    /// (low + high) * 0.5, by component.
    ///
    /// # Example
    ///
    /// ```
    /// use bagnoszyk::{Aabb2, Vec2, aabb};
    ///
    /// let b = Aabb2::from([0.0, 0.0, 4.0, 2.0]);
    /// assert_eq!(aabb::center(b), Vec2 { x: 2.0, y: 1.0 });
    /// ```
    #[link_name = "bgz_aabb_center"]
    pub safe fn center(b: Aabb2) -> Vec2;
}

mod raw {
    use crate::answers::*;
    use crate::shapes::*;

    unsafe extern "C" {
        #[link_name = "bgz_aabb_intersections_against_line"]
        pub safe fn intersections_against_line(
            b: Aabb2,
            origin: Vec2,
            direction: Vec2,
        ) -> IntervalAnswer;

        #[link_name = "bgz_aabb_intersections_against_ray"]
        pub safe fn intersections_against_ray(
            b: Aabb2,
            origin: Vec2,
            direction: Vec2,
        ) -> IntervalAnswer;

        #[link_name = "bgz_aabb_intersections_against_lines"]
        pub fn intersections_against_lines(
            b: Aabb2,
            lines: *const f32,
            lines_length: usize,
            out: *mut f32,
            out_length: usize,
        ) -> CountAnswer;
    }
}

/// The stretch of the line `origin` + t * `direction` in the box `b`, edges included: from tmin to
/// tmax, tmin <= tmax, both finite. None if the line misses `b`. The t at which the line meets an
/// edge is (edge - `origin`) / `direction`, as computed: rounding can turn a touched corner into a
/// miss, and a narrow miss into a hit. t keeps its sign: a line may be in the box only at negative
/// t. It is held to the finite numbers, -3.4028235e38 to 3.4028235e38: where nothing bounds t these
/// two are the answer, and a line that is in the box only beyond them misses it. Where a component
/// of `direction` is a zero, that dimension has no t, and only tests that `origin` is not outside.
/// An edge whose t is a NaN drops out: that dimension has the opposite edge's t alone. Where both
/// drop out, as with a NaN in `origin` or `direction`, that dimension bounds nothing. A box
/// reversed in a dimension is taken as ordered there, unless that component of `direction` is a
/// zero. The edge is the one by which the line comes in: [`Edge::Left`](crate::Edge::Left) at
/// min_x, [`Edge::Right`](crate::Edge::Right) at max_x, [`Edge::Lower`](crate::Edge::Lower) at
/// min_y or [`Edge::Upper`](crate::Edge::Upper) at max_y. It is `None` if tmin is -3.4028235e38.
/// Else it is an edge of x if the smaller t of x equals tmin, and if not, one of y: the edge with
/// that t, and where both have it, the one at min_x or min_y. In a box reversed in x the edge at
/// min_x is on the side of the larger x. Where `origin` is far from the box, rounding can make two
/// t equal, and so tell the edge at min_x for the one at max_x, or an edge of x for one of y.
///
/// # Example
///
/// ```
/// use bagnoszyk::{Aabb2, Edge, Interval, Vec2, aabb};
///
/// let b = Aabb2::from([0.0, 0.0, 4.0, 2.0]);
/// let origin = Vec2 { x: 6.0, y: -1.0 };
/// let direction = Vec2 { x: -1.0, y: 1.0 };
/// assert_eq!(aabb::intersections_against_line(b, origin, direction), Some(Interval { tmin: 2.0, tmax: 3.0, edge: Some(Edge::Right) }));
/// ```
#[inline]
pub fn intersections_against_line(b: Aabb2, origin: Vec2, direction: Vec2) -> Option<Interval> {
    raw::intersections_against_line(b, origin, direction).option()
}

/// The line's answer, its edge too, if tmax >= 0, and else none. tmin is not raised to 0: it may be
/// negative, and the edge then lies behind the origin.
///
/// # Example
///
/// ```
/// use bagnoszyk::{Aabb2, Edge, Interval, Vec2, aabb};
///
/// let b = Aabb2::from([0.0, 0.0, 4.0, 2.0]);
/// let origin = Vec2 { x: 2.0, y: 1.0 };
/// let direction = Vec2 { x: 1.0, y: 0.0 };
/// assert_eq!(aabb::intersections_against_ray(b, origin, direction), Some(Interval { tmin: -2.0, tmax: 2.0, edge: Some(Edge::Left) }));
/// ```
#[inline]
pub fn intersections_against_ray(b: Aabb2, origin: Vec2, direction: Vec2) -> Option<Interval> {
    raw::intersections_against_ray(b, origin, direction).option()
}

/// Every line of a list against the box `b`, a whole face in one call: each is answered as by
/// [`aabb::intersections_against_line`](crate::aabb::intersections_against_line), bit for bit. In
/// `lines` a line is four floats, [`LINE_FLOATS`](crate::limits::LINE_FLOATS): x and y of its
/// origin, x and y of its direction. It gives four,
/// [`LINE_RESULT_FLOATS`](crate::limits::LINE_RESULT_FLOATS): 1, tmin, tmax and the number of the
/// edge for a hit, or 0, 0, 0 and 0 for a miss; a hit may have the interval from 0 to 0 too. The
/// numbers are 0 for `None`, 1 for [`Edge::Left`](crate::Edge::Left), 2 for
/// [`Edge::Right`](crate::Edge::Right), 3 for [`Edge::Lower`](crate::Edge::Lower) and 4 for
/// [`Edge::Upper`](crate::Edge::Upper). Both lengths count floats, not lines. There may be any
/// number of lines, none too.
///
/// Writes what the lines give, in their order, to the start of `out` and answers how many floats
/// that is, four a line.
///
/// # Errors
///
/// [`Refusal::LINES`] if the length of `lines` is not a multiple of 4; [`Refusal::ROOM`] if `out`
/// has fewer than four floats a line.
///
/// # Example
///
/// ```
/// use bagnoszyk::{Aabb2, aabb};
///
/// let b = Aabb2::from([0.0, 0.0, 4.0, 2.0]);
/// let mut out: [f32; 10] = [9.0; 10];
/// assert_eq!(aabb::intersections_against_lines(b, &[6.0, -1.0, -1.0, 1.0, 6.0, -1.0, 1.0, 1.0], &mut out), Ok(8));
/// assert_eq!(out, [1.0, 2.0, 3.0, 2.0, 0.0, 0.0, 0.0, 0.0, 9.0, 9.0]);
/// ```
#[inline]
pub fn intersections_against_lines(
    b: Aabb2,
    lines: &[f32],
    out: &mut [f32],
) -> Result<usize, Refusal> {
    let a = unsafe {
        // SAFETY: each list is lent for the call alone, by its start and its length.
        raw::intersections_against_lines(
            b,
            lines.as_ptr(),
            lines.len(),
            out.as_mut_ptr(),
            out.len(),
        )
    };
    a.result()
}

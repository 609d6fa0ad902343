//! Ranges of numbers.
//!
//! Written by tests/generate from the exported functions bgz_range_..; not to be edited.

use crate::refusal::Refusal;
use crate::shapes::Range;

mod raw {
    use crate::answers::*;
    use crate::shapes::*;

    unsafe extern "C" {
        #[link_name = "bgz_range_distance_to_range"]
        pub safe fn distance_to_range(a: Range, b: Range) -> FloatAnswer;

        #[link_name = "bgz_range_intersection_length"]
        pub safe fn intersection_length(a: Range, b: Range) -> FloatAnswer;
    }
}

/// The gap between two ranges. None if they touch or overlap.
///
/// # Errors
///
/// [`Refusal::ORDER`] if `a` or `b` is not low <= high, as with a NaN.
///
/// # Example
///
/// ```
/// use bagnoszyk::{Range, range};
///
/// let a = Range { low: 0.0, high: 1.0 };
/// let b = Range { low: 3.0, high: 5.0 };
/// assert_eq!(range::distance_to_range(a, b), Ok(Some(2.0)));
/// ```
#[inline]
pub fn distance_to_range(a: Range, b: Range) -> Result<Option<f32>, Refusal> {
    raw::distance_to_range(a, b).result_of_option()
}

/// The length that two ranges share. None if they touch or lie apart; a range of one point strictly
/// inside the other gives 0.
///
/// # Errors
///
/// [`Refusal::ORDER`] if `a` or `b` is not low <= high, as with a NaN.
///
/// # Example
///
/// ```
/// use bagnoszyk::{Range, range};
///
/// let a = Range { low: 0.0, high: 4.0 };
/// let b = Range { low: 3.0, high: 5.0 };
/// assert_eq!(range::intersection_length(a, b), Ok(Some(1.0)));
/// ```
#[inline]
pub fn intersection_length(a: Range, b: Range) -> Result<Option<f32>, Refusal> {
    raw::intersection_length(a, b).result_of_option()
}

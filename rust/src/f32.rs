//! Float helpers.
//!
//! Written by tests/generate from the exported functions bgz_f32_..; not to be edited.

use crate::shapes::SqrtDigits;

unsafe extern "C" {
    /// The absolute value: the sign is dropped, that of -0 too.
    ///
    /// # Example
    ///
    /// ```
    /// use bagnoszyk::f32;
    ///
    /// assert_eq!(f32::abs(-1.5), 1.5);
    /// ```
    #[link_name = "bgz_f32_abs"]
    pub safe fn abs(x: f32) -> f32;

    /// The smaller of two numbers. Of two zeros it is the first, and of a NaN and a number the
    /// number.
    ///
    /// # Example
    ///
    /// ```
    /// use bagnoszyk::f32;
    ///
    /// assert_eq!(f32::min(2.0, -1.0), -1.0);
    /// ```
    #[link_name = "bgz_f32_min"]
    pub safe fn min(a: f32, b: f32) -> f32;

    /// The larger of two numbers. Of two zeros it is the first, and of a NaN and a number the
    /// number.
    ///
    /// # Example
    ///
    /// ```
    /// use bagnoszyk::f32;
    ///
    /// assert_eq!(f32::max(2.0, -1.0), 2.0);
    /// ```
    #[link_name = "bgz_f32_max"]
    pub safe fn max(a: f32, b: f32) -> f32;

    /// `low` if `x` is below `low`, else `high` if `x` is above `high`, else `x`, a NaN too. Any
    /// `low` and `high` are taken.
    ///
    /// # Example
    ///
    /// ```
    /// use bagnoszyk::f32;
    ///
    /// assert_eq!(f32::clamp(5.0, 0.0, 1.0), 1.0);
    /// ```
    #[link_name = "bgz_f32_clamp"]
    pub safe fn clamp(x: f32, low: f32, high: f32) -> f32;

    /// The greatest whole number that is not above `x`. The sign is kept, that of a zero too; a NaN
    /// and an infinity give themselves.
    ///
    /// # Example
    ///
    /// ```
    /// use bagnoszyk::f32;
    ///
    /// assert_eq!(f32::floor(-1.5), -2.0);
    /// ```
    #[link_name = "bgz_f32_floor"]
    pub safe fn floor(x: f32) -> f32;

    /// The least whole number that is not below `x`. The sign is kept, so -0.5 gives -0; a NaN and
    /// an infinity give themselves.
    ///
    /// # Example
    ///
    /// ```
    /// use bagnoszyk::f32;
    ///
    /// assert_eq!(f32::ceil(1.25), 2.0);
    /// ```
    #[link_name = "bgz_f32_ceil"]
    pub safe fn ceil(x: f32) -> f32;

    /// `x` cut toward zero to an integer and held from -2^31 to 2^31 - 1; 0 for a NaN.
    ///
    /// # Example
    ///
    /// ```
    /// use bagnoszyk::f32;
    ///
    /// assert_eq!(f32::to_i32(-1.75), -1);
    /// ```
    #[link_name = "bgz_f32_to_i32"]
    pub safe fn to_i32(x: f32) -> i32;

    /// `x` cut toward zero to an integer and held from 0 to 2^32 - 1; 0 for a NaN.
    ///
    /// # Example
    ///
    /// ```
    /// use bagnoszyk::f32;
    ///
    /// assert_eq!(f32::to_u32(1.75), 1);
    /// ```
    #[link_name = "bgz_f32_to_u32"]
    pub safe fn to_u32(x: f32) -> u32;

    /// `x` cut toward zero to an integer and held from 0 to 2^64 - 1; 0 for a NaN.
    ///
    /// # Example
    ///
    /// ```
    /// use bagnoszyk::f32;
    ///
    /// assert_eq!(f32::to_usize(-1.75), 0);
    /// ```
    #[link_name = "bgz_f32_to_usize"]
    pub safe fn to_usize(x: f32) -> usize;

    /// The float nearest to the square root. A zero and +infinity give themselves; an `x` below 0
    /// and a NaN give a NaN.
    ///
    /// # Example
    ///
    /// ```
    /// use bagnoszyk::f32;
    ///
    /// assert_eq!(f32::sqrt(2.25), 1.5);
    /// ```
    #[link_name = "bgz_f32_sqrt"]
    pub safe fn sqrt(x: f32) -> f32;

    /// The square root as [`f32::sqrt`](crate::f32::sqrt) gives it, and how many of its binary
    /// digits were worked, from the leading 1: up to the last 1 of an exact root, at most 12 of
    /// them, and 24 of any other. 0 for a NaN, a zero, an infinity and an `x` below 0.
    ///
    /// # Example
    ///
    /// ```
    /// use bagnoszyk::{SqrtDigits, f32};
    ///
    /// assert_eq!(f32::sqrt_digits(6.25), SqrtDigits { root: 2.5, digits: 3 });
    /// ```
    #[link_name = "bgz_f32_sqrt_digits"]
    pub safe fn sqrt_digits(x: f32) -> SqrtDigits;
}

//! Points and vectors.
//!
//! Written by tests/generate from the exported functions bgz_vec2_..; not to be edited.

use crate::shapes::Vec2;

unsafe extern "C" {
    /// `a` - `b`, by component.
    ///
    /// # Example
    ///
    /// ```
    /// use bagnoszyk::{Vec2, vec2};
    ///
    /// let a = Vec2 { x: 3.0, y: 4.0 };
    /// let b = Vec2 { x: 1.0, y: 1.0 };
    /// assert_eq!(vec2::sub(a, b), Vec2 { x: 2.0, y: 3.0 });
    /// ```
    #[link_name = "bgz_vec2_sub"]
    pub safe fn sub(a: Vec2, b: Vec2) -> Vec2;

    /// `a.x * b.x + a.y * b.y`.
    ///
    /// # Example
    ///
    /// ```
    /// use bagnoszyk::{Vec2, vec2};
    ///
    /// let a = Vec2 { x: 1.0, y: 2.0 };
    /// let b = Vec2 { x: 3.0, y: 4.0 };
    /// assert_eq!(vec2::dot(a, b), 11.0);
    /// ```
    #[link_name = "bgz_vec2_dot"]
    pub safe fn dot(a: Vec2, b: Vec2) -> f32;

    /// `p.x * p.x + p.y * p.y`.
    ///
    /// # Example
    ///
    /// ```
    /// use bagnoszyk::{Vec2, vec2};
    ///
    /// let p = Vec2 { x: 3.0, y: 4.0 };
    /// assert_eq!(vec2::squared_length(p), 25.0);
    /// ```
    #[link_name = "bgz_vec2_squared_length"]
    pub safe fn squared_length(p: Vec2) -> f32;

    /// The square root of the squared length, which may overflow to infinity or underflow to 0.
    ///
    /// # Example
    ///
    /// ```
    /// use bagnoszyk::{Vec2, vec2};
    ///
    /// let p = Vec2 { x: 3.0, y: 4.0 };
    /// assert_eq!(vec2::length(p), 5.0);
    /// ```
    #[link_name = "bgz_vec2_length"]
    pub safe fn length(p: Vec2) -> f32;
}

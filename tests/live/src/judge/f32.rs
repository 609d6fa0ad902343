//! The f32 functions of Rust's standard library, called as del-geo-core calls them, through num-traits: what the library's are compared with.
//! The digits of a root are counted in root.rs.

use super::{Row, row, sqrt_digits};
use crate::answer::same_number;
use crate::inputs::Kind::Float as F;
use num_traits::float::Float;

pub const ROWS: &[Row] = &[
    row("f32.abs", &[F], |a| Float::abs(a.f(0)).into()),
    row("f32.min", &[F, F], |a| Float::min(a.f(0), a.f(1)).into()),
    row("f32.max", &[F, F], |a| Float::max(a.f(0), a.f(1)).into()),
    row("f32.clamp", &[F, F, F], |a| clamp(a.f(0), a.f(1), a.f(2)).into()),
    row("f32.floor", &[F], |a| Float::floor(a.f(0)).into()),
    row("f32.ceil", &[F], |a| Float::ceil(a.f(0)).into()),
    row("f32.sqrt", &[F], |a| Float::sqrt(a.f(0)).into()),
    row("f32.sqrt_digits", &[F], |a| sqrt_digits(a.f(0)).into()),
    row("f32.to_i32", &[F], |a| (a.f(0) as i32).into()),
    row("f32.to_u32", &[F], |a| (a.f(0) as u32).into()),
    row("f32.to_usize", &[F], |a| (a.f(0) as u64).into()),
];

/// The library's clamp takes any low and high, and Rust's own panics unless low <= high: below low
/// gives low, above high gives high, and anything else is unchanged. Where Rust's does not panic,
/// both must agree.
fn clamp(x: f32, low: f32, high: f32) -> f32 {
    let clamped = if x < low {
        low
    } else if x > high {
        high
    } else {
        x
    };
    if low <= high {
        assert!(same_number(clamped, x.clamp(low, high)));
    }
    clamped
}

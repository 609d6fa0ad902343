//! The Rust's routines of range.rs: what the library's are compared with.

use super::{Row, limits, row};
use crate::inputs::Kind::Range;
use del_geo_core::range;

pub const ROWS: &[Row] = &[
    row("range.distance_to_range", &[Range, Range], |a| {
        range::distance_to_range((a.f(0), a.f(1)), (a.f(2), a.f(3))).into()
    })
    .panic_is(limits::ORDER),
    row("range.intersection_length", &[Range, Range], |a| {
        range::intersection_length(&a.fs(0), &a.fs(2)).into()
    })
    .panic_is(limits::ORDER),
];

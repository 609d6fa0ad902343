//! The Rust's routines of vec2.rs: what the library's are compared with.

use super::{Row, row};
use crate::inputs::Kind::Point;
use del_geo_core::vec2;

pub const ROWS: &[Row] = &[
    row("vec2.sub", &[Point, Point], |a| vec2::sub(&a.fs(0), &a.fs(2)).into()),
    row("vec2.dot", &[Point, Point], |a| vec2::dot(&a.fs(0), &a.fs(2)).into()),
    row("vec2.squared_length", &[Point], |a| vec2::squared_length(&a.fs(0)).into()),
    row("vec2.length", &[Point], |a| vec2::length(&a.fs(0)).into()),
];

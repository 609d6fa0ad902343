//! The Rust's routines of obb2.rs: what the library's are compared with.

use super::{Row, limits, row};
use crate::inputs::Kind::{Box, Point, TurnedBox};
use del_geo_core::obb2::OBB2Trait;

pub const ROWS: &[Row] = &[
    row("obb2.corner_points", &[TurnedBox], |a| {
        let [[x0, y0], [x1, y1], [x2, y2], [x3, y3]] = a.fs(0).corner_points();
        [x0, y0, x1, y1, x2, y2, x3, y3].into()
    }),
    row("obb2.is_include_point2", &[TurnedBox, Point], |a| {
        a.fs(0).is_include_point2(&a.fs(6)).into()
    }),
    row("obb2.nearest_point2", &[TurnedBox, Point], |a| a.fs(0).nearest_point2(&a.fs(6)).into())
        .panic_is(limits::NAN_LENGTH),
    row("obb2.is_intersect_aabb2", &[TurnedBox, Box], |a| {
        a.fs(0).is_intersect_aabb2(&a.fs(6)).into()
    }),
    row("obb2.is_intersect_obb2", &[TurnedBox, TurnedBox], |a| {
        a.fs(0).is_intersect_obb2(&a.fs(6)).into()
    }),
];

//! The Rust's routines of obb3.rs: what the library's are compared with.

use super::{Row, limits, row};
use crate::inputs::Kind::{Point3, Radius, TurnedBox3};
use del_geo_core::obb3;

pub const ROWS: &[Row] = &[
    row("obb3.corner_points", &[TurnedBox3], |a| {
        let corners: [[f32; 3]; 8] = obb3::corner_points(&a.fs(0));
        let floats: [f32; 24] = corners.as_flattened().try_into().unwrap();
        floats.into()
    }),
    row("obb3.is_include_point", &[TurnedBox3, Point3, Radius], |a| {
        obb3::is_include_point(&a.fs(0), &a.fs(12), a.f(15)).into()
    }),
    row("obb3.is_intersect_to_obb3", &[TurnedBox3, TurnedBox3], |a| {
        obb3::is_intersect_to_obb3::<f32>(&a.fs(0), &a.fs(12)).into()
    })
    .panic_is(limits::NAN_PROJECTION),
];

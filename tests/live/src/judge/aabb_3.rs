//! The Rust's routines of aabb.rs, at three dimensions: what the library's are compared with. The Rust tells no edge: a hit's is added here.

use super::{Row, row};
use crate::edge;
use crate::inputs::Kind::{Box3, Direction3, Point3};
use del_geo_core::aabb;

pub const ROWS: &[Row] = &[
    row("aabb_3.line", &[Box3, Point3, Direction3], |a| {
        let hit = aabb::intersections_against_line::<f32, 3, 6>(&a.fs(0), &a.fs(6), &a.fs(9));
        edge::told::<3>(hit, &a.floats[..6], &a.fs(6), &a.fs(9)).into()
    }),
    row("aabb_3.ray", &[Box3, Point3, Direction3], |a| {
        let hit = aabb::intersections_against_ray::<f32, 3, 6>(&a.fs(0), &a.fs(6), &a.fs(9));
        edge::told::<3>(hit, &a.floats[..6], &a.fs(6), &a.fs(9)).into()
    }),
    row("aabb_3.include", &[Box3, Point3], |a| {
        aabb::is_include_point::<f32, 3, 6>(&a.fs(0), &a.fs(6)).into()
    }),
    row("aabb_3.center", &[Box3], |a| aabb::center::<f32, 3, 6>(&a.fs(0)).into()),
];

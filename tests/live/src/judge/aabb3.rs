//! The Rust's routines of aabb3.rs: what the library's are compared with.

use super::{Row, limits, row};
use crate::answer::Answer;
use crate::ask::Args;
use crate::inputs::Kind::{Box3, Corner, Float, Floats, Index, Point3, Radius};
use del_geo_core::aabb3;

pub const ROWS: &[Row] = &[
    row("aabb3.from_two_aabbs", &[Box3, Box3], |a| {
        aabb3::from_two_aabbs(&a.fs(0), &a.fs(6)).into()
    }),
    row("aabb3.set_as_cube", &[Box3, Point3, Radius], |a| changed(a, aabb3::set_as_cube)),
    row("aabb3.add_point", &[Box3, Point3, Radius], |a| changed(a, aabb3::add_point)),
    row("aabb3.center", &[Box3], |a| aabb3::center(&a.fs(0)).into()),
    row("aabb3.size", &[Box3], |a| aabb3::size(&a.fs(0)).into()),
    row("aabb3.scale", &[Box3, Float], |a| aabb3::scale(&a.fs(0), a.f(6)).into()),
    row("aabb3.volume", &[Box3], |a| aabb3::volume(&a.fs(0)).into()),
    row("aabb3.max_edge_size", &[Box3], |a| aabb3::max_edge_size(&a.fs(0)).into()),
    row("aabb3.xyz_from_hex_index", &[Box3, Corner], |a| {
        aabb3::xyz_from_hex_index(&a.fs(0), a.u(0) as usize).into()
    })
    .panic_is(limits::CORNER),
    row("aabb3.is_active", &[Box3], |a| aabb3::is_active(&a.fs::<6>(0)).into()),
    row("aabb3.is_contain", &[Box3, Point3], |a| aabb3::is_contain(&a.fs::<6>(0), &a.fs(6)).into()),
    row("aabb3.is_intersect", &[Box3, Box3], |a| {
        aabb3::is_intersect(&a.fs::<6>(0), &a.fs(6)).into()
    }),
    row("aabb3.min_sq_dist_to_point3", &[Box3, Point3], |a| {
        aabb3::min_sq_dist_to_point3(&a.fs(0), &a.fs(6)).into()
    }),
    row("aabb3.is_possible_distance", &[Box3, Box3, Float], |a| {
        let (first, second) = (a.fs(0), a.fs(6));
        aabb3::is_possible_distance_to_aabb2_smaller_than_threshold(&first, &second, a.f(12)).into()
    })
    .panic_is(limits::ORDER),
    // The Rust has no such routine. Floats after the last whole box belong to no box.
    row("aabb3.count", &[Floats], |a| (a.floats.len() as u64 / 6).into()),
    row("aabb3.from_aabbs", &[Index, Floats], |a| {
        aabb3::from_aabbs(&a.floats, a.u(0) as usize).aabb.into()
    })
    .panic_is(limits::INDEX),
    row("aabb3.from_slice", &[Floats], |a| aabb3::from_slice(&a.floats).aabb.into())
        .panic_is(limits::INDEX),
];

/// The box after a routine that changes it by a point and a margin.
fn changed(a: &Args, change: fn(&mut [f32; 6], &[f32; 3], f32)) -> Answer {
    let mut corners = a.fs(0);
    change(&mut corners, &a.fs(6), a.f(9));
    corners.into()
}

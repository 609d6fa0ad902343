//! The Rust's routines of aabb2.rs: what the library's are compared with.

use super::{Row, limits, row};
use crate::answer::{Answer, Refused};
use crate::ask::Args;
use crate::inputs::Kind::{Box, Float, Floats, Index, Matrix, Point, Radius, Side, Tiles};
use del_geo_core::aabb2;

pub const ROWS: &[Row] = &[
    row("aabb2.from_point", &[Point, Radius], |a| aabb2::from_point(&a.fs(0), a.f(2)).into())
        .panic_is(limits::RADIUS),
    row("aabb2.from_two_points", &[Point, Point, Radius], |a| {
        aabb2::from_two_points(&a.fs(0), &a.fs(2), a.f(4)).into()
    }),
    row("aabb2.from_two_aabbs", &[Box, Box], |a| aabb2::from_two_aabbs(&a.fs(0), &a.fs(4)).into()),
    row("aabb2.add_point", &[Box, Point, Radius], add_point).panic_is(limits::RADIUS),
    row("aabb2.add_point_lent", &[Box, Point, Radius], add_point).panic_is(limits::RADIUS),
    row("aabb2.rasterize", &[Box, Side, Side], |a| rasterize(a).into()),
    row("aabb2.center", &[Box], |a| aabb2::center(&a.fs(0)).into()),
    row("aabb2.max_edge_size", &[Box], |a| aabb2::max_edge_size(&a.fs(0)).into()),
    row("aabb2.transform_homogeneous", &[Box, Matrix], |a| {
        aabb2::transform_homogeneous(&a.fs(0), &a.fs(4)).into()
    })
    .panic_is(limits::NO_IMAGE),
    row("aabb2.to_transformation_world2unit_ortho_preserve_asp", &[Box], |a| {
        aabb2::to_transformation_world2unit_ortho_preserve_asp(&a.fs(0)).into()
    })
    .within(maximum_is_settled),
    row("aabb2.is_include_point2", &[Box, Point], |a| {
        aabb2::is_include_point2(&a.fs(0), &a.fs(4)).into()
    }),
    row("aabb2.is_intersect_square", &[Box, Point, Radius], |a| {
        aabb2::is_intersect_square(&a.fs(0), &a.fs(4), a.f(6)).into()
    }),
    row("aabb2.nearest_point2", &[Box, Point], |a| {
        aabb2::nearest_point2(&a.fs(0), &a.fs(4)).into()
    })
    .panic_is(limits::ORDER),
    row("aabb2.sdf", &[Box, Point], |a| aabb2::sdf(&a.fs(0), &a.fs(4)).into()),
    row("aabb2.scale", &[Box, Float], |a| aabb2::scale(&a.fs(0), a.f(4)).into()),
    row("aabb2.translate", &[Box, Point], |a| aabb2::translate(&a.fs(0), &a.fs(4)).into()),
    row("aabb2.overlapping_tiles", &[Tiles], |a| tiles(a).into()),
    row("aabb2.from_slice", &[Floats], |a| aabb2::from_slice(&a.floats).aabb.into())
        .panic_is(limits::INDEX),
    row("aabb2.from_aabbs", &[Index, Floats], |a| {
        aabb2::from_aabbs(&a.floats, a.u(0) as usize).aabb.into()
    })
    .panic_is(limits::INDEX),
    // The Rust has no such routine. Floats after the last whole box belong to no box.
    row("aabb2.count", &[Floats], |a| (a.floats.len() as u64 / 4).into()),
];

fn add_point(a: &Args) -> Answer {
    let mut corners = a.fs(0);
    aabb2::add_point(&mut corners, &a.fs(4), a.f(6));
    corners.into()
}

fn rasterize(a: &Args) -> Result<[u64; 4], Refused> {
    limits::rasterize(a.u(0), a.u(1))?;
    let image = (a.u(0) as usize, a.u(1) as usize);
    Ok(aabb2::rasterize::<f32>(&a.fs(0), &image).map(|n| n as u64))
}

/// The Rust leaves the maximum of two zeros of unlike sign open, and this routine divides by the maximum.
fn maximum_is_settled(a: &Args) -> bool {
    let (x, y) = (a.f(2) - a.f(0), a.f(3) - a.f(1));
    x != 0.0 || y != 0.0 || x.is_sign_negative() == y.is_sign_negative()
}

fn tiles(a: &Args) -> Result<Vec<u32>, Refused> {
    let (corners, size, shape) = (a.fs(0), a.u(0), (a.u(1), a.u(2)));
    limits::tiles(&corners, size, shape.0, shape.1)?;
    let shape = (shape.0 as usize, shape.1 as usize);
    let tiles = aabb2::overlapping_tiles(&corners, size as usize, shape);
    limits::room(tiles.len(), a.u(3))?;
    Ok(tiles.into_iter().map(|tile| tile.try_into().unwrap()).collect())
}

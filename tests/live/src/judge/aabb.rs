//! The Rust's routines of aabb.rs, at two dimensions: what the library's are compared with. The Rust tells no edge: a hit's is added here.

use super::{Row, limits, row};
use crate::answer::Refused;
use crate::ask::Args;
use crate::edge;
use crate::inputs::Kind::{Box, Direction, Lines, Point};
use del_geo_core::aabb;

pub const ROWS: &[Row] = &[
    row("aabb.line", &[Box, Point, Direction], |a| {
        let hit = aabb::intersections_against_line::<f32, 2, 4>(&a.fs(0), &a.fs(4), &a.fs(6));
        edge::told::<2>(hit, &a.floats[..4], &a.fs(4), &a.fs(6)).into()
    }),
    row("aabb.lines", &[Box, Lines], |a| lines(a).into()),
    row("aabb.ray", &[Box, Point, Direction], |a| {
        let hit = aabb::intersections_against_ray::<f32, 2, 4>(&a.fs(0), &a.fs(4), &a.fs(6));
        edge::told::<2>(hit, &a.floats[..4], &a.fs(4), &a.fs(6)).into()
    }),
    row("aabb.include", &[Box, Point], |a| {
        aabb::is_include_point::<f32, 2, 4>(&a.fs(0), &a.fs(4)).into()
    }),
    row("aabb.center", &[Box], |a| aabb::center::<f32, 2, 4>(&a.fs(0)).into()),
];

/// The Rust has no routine for a whole face: in its place its line routine is called for each line in turn.
fn lines(a: &Args) -> Result<Vec<f32>, Refused> {
    let (lines, rest) = a.floats[4..].as_chunks();
    limits::lines(rest.len())?;
    let results: Vec<f32> = lines.iter().flat_map(|line| result(&a.fs(0), line)).collect();
    limits::room(results.len(), a.u(0))?;
    Ok(results)
}

fn result(b: &[f32; 4], &[x, y, dx, dy]: &[f32; 4]) -> [f32; 4] {
    let hit = aabb::intersections_against_line::<f32, 2, 4>(b, &[x, y], &[dx, dy]);
    match edge::told(hit, b, &[x, y], &[dx, dy]) {
        Some((tmin, tmax, edge)) => [1.0, tmin, tmax, edge as f32],
        None => [0.0; 4],
    }
}

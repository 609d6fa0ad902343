//! The Rust's routines of edge2.rs: what the library's are compared with.

use super::{Row, difference, limits, row};
use crate::answer::{Answer, Refused};
use crate::ask::Args;
use crate::inputs::Kind::{Box, Ends, Float, Pen, Point, Stroke};
use del_geo_core::{aabb, edge2, vec2};

pub const ROWS: &[Row] = &[
    row("edge2.length", &[Point, Point], |a| edge2::length(&a.fs(0), &a.fs(2)).into()),
    row("edge2.squared_length", &[Point, Point], |a| {
        edge2::squared_length(&a.fs(0), &a.fs(2)).into()
    }),
    row("edge2.unit_edge_vector", &[Point, Point], |a| {
        edge2::unit_edge_vector(&a.fs(0), &a.fs(2)).into()
    }),
    row("edge2.position_from_ratio", &[Point, Point, Float], |a| {
        edge2::position_from_ratio(&a.fs(0), &a.fs(2), a.f(4)).into()
    }),
    row("edge2.culling_intersection", &[Point, Point, Point, Point], |a| {
        edge2::culling_intersection(&a.fs(0), &a.fs(2), &a.fs(4), &a.fs(6)).into()
    }),
    row("edge2.nearest_origin", &[Point, Point], |a| {
        nearest(edge2::nearest_origin(&a.fs(0), &a.fs(2)))
    }),
    row("edge2.nearest_to_point", &[Point, Point, Point], |a| {
        nearest(edge2::nearest_to_point(&a.fs(0), &a.fs(2), &a.fs(4)))
    }),
    row("edge2.intersection_length_against_aabb2", &[Point, Point, Box], |a| {
        edge2::intersection_length_against_aabb2(&a.fs(0), &a.fs(2), &a.fs(4)).into()
    })
    .panic_is(limits::ORDER),
    row("edge2.overlapping_pixels_dda", &[Stroke], |a| {
        stroke(a).and_then(|es| listed(es, a)).into()
    }),
    // The Rust does not have these two: its walk without the last entry, and a bound by the exact difference of the ends.
    row("edge2.pixels_inside", &[Stroke], |a| inside(a).and_then(|es| listed(es, a)).into()),
    row("edge2.pixels_bound", &[Ends], |a| bound(a).into()),
    row("edge2.ratio_from_position", &[Point, Point, Point], |a| {
        edge2::ratio_from_position(&a.fs(0), &a.fs(2), &a.fs(4)).into()
    }),
    // The Rust does not have this one either.
    row("edge2.ink", &[Pen, Box], |a| ink(a).into()),
];

fn nearest((ratio, [x, y]): (f32, [f32; 2])) -> Answer {
    [ratio, x, y].into()
}

fn stroke(a: &Args) -> Result<Vec<usize>, Refused> {
    limits::stroke(a.u(0), a.u(1), &a.fs(0))?;
    let image = (a.u(0) as usize, a.u(1) as usize);
    Ok(edge2::overlapping_pixels_dda::<f32>(image, &a.fs(0), &a.fs(2)))
}

/// The Rust's entries without the last.
fn inside(a: &Args) -> Result<Vec<usize>, Refused> {
    let mut entries = stroke(a)?;
    entries.pop();
    Ok(entries)
}

fn listed(entries: Vec<usize>, a: &Args) -> Result<Vec<u32>, Refused> {
    limits::room(entries.len(), a.u(2))?;
    Ok(entries.into_iter().map(|entry| entry.try_into().unwrap()).collect())
}

/// The lesser of two bounds: by the ends of the stroke, and by the sides of the image.
fn bound(a: &Args) -> Result<u64, Refused> {
    let ends @ [x0, y0, x1, y1] = a.fs(0);
    limits::stroke(a.u(0), a.u(1), &ends)?;
    let larger = difference::rounded_up(x0, x1).max(difference::rounded_up(y0, y1));
    Ok((2 * larger + 2).min(a.u(0).max(a.u(1)) + 1))
}

/// The length of what a stroke draws in a box, from the Rust's routines: the clip of the stroke's line, bounded to 0..1, and the length between
/// the positions at the two ends.
fn ink(a: &Args) -> Result<f32, Refused> {
    let (p0, p1, b) = (a.fs(0), a.fs(2), a.fs(4));
    limits::ink(&a.fs(0), &b)?;
    let direction = vec2::sub(&p1, &p0);
    let clipped = aabb::intersections_against_line::<f32, 2, 4>(&b, &p0, &direction);
    let bounded = clipped.map(|(tmin, tmax)| (tmin.max(0.0), tmax.min(1.0)));
    let position = |ratio| edge2::position_from_ratio(&p0, &p1, ratio);
    Ok(match bounded {
        Some((from, to)) if from <= to => edge2::length(&position(from), &position(to)),
        _ => 0.0,
    })
}

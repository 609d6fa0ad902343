//! Pen strokes by their length in pixels, each with its falling twin.

use super::{Sized, calls};
use crate::measure::Case;
use bagnoszyk::edge2;
use bagnoszyk::limits::IMAGE_SIDE_MAX as SIDE;
use bagnoszyk::shapes::Vec2;
use std::cell::RefCell;

type Stroke = (Vec2, Vec2);

#[derive(Clone, Copy)]
enum Room {
    /// Longer than the entries.
    Ample,
    /// Just as long as the entries.
    Exact,
}

pub fn cases() -> Vec<Case> {
    let mut cases = Vec::new();
    for pixels in [10, 1000, 30000] {
        for (place, at) in
            [("inside", inside(pixels)), ("outside", -40000.0), ("half outside", half(pixels))]
        {
            for (room, list) in [(Room::Ample, "ample list"), (Room::Exact, "exact list")] {
                let name = format!("stroke: {pixels} pixels, {place}, {list}");
                cases.push(stroke::<true>(&name, strokes(pixels, at), pixels, room).goal(1.0));
                let name = format!("stroke, no closing entry: {pixels} pixels, {place}, {list}");
                cases.push(stroke::<false>(&name, strokes(pixels, at), pixels, room).goal(1.0));
            }
        }
    }
    cases
}

/// The limit on coordinates allows strokes of some 131,000 pixels.
pub fn sized() -> Vec<Sized> {
    [10, 100, 1000, 10000, 100000]
        .map(|pixels| {
            let strokes = strokes(pixels, inside(pixels));
            Sized::new("stroke: a pixel", stroke::<true>("size", strokes, pixels, Room::Ample))
        })
        .into()
}

/// The low end in x, such that a stroke lies inside the image, or reaches past it on both sides if it is longer.
fn inside(pixels: usize) -> f32 {
    if pixels < SIDE { 100.3 } else { -(pixels as f32) / 2.0 + SIDE as f32 / 2.0 }
}

/// The low end in x, such that half of a stroke lies left of the image.
fn half(pixels: usize) -> f32 {
    -(pixels as f32) / 2.0
}

/// Eight slopes, each rising and falling.
fn strokes(pixels: usize, at: f32) -> Vec<Stroke> {
    let mut strokes = Vec::new();
    for k in 0..8 {
        let (from, to) = (at, at + pixels as f32 - 0.5);
        let rise = (pixels as f32) * k as f32 / 8.0;
        let low = 8000.7 - rise / 2.0;
        let (rising, falling) = ((low, low + rise), (low + rise, low));
        for (y0, y1) in [rising, falling] {
            strokes.push((Vec2 { x: from, y: y0 }, Vec2 { x: to, y: y1 }));
        }
    }
    strokes
}

/// Strokes with the closing entry, or without it: then the last entry of the Rust's walk is left out. Each of the two is compiled by itself.
fn stroke<const CLOSING: bool>(
    name: &str,
    strokes: Vec<Stroke>,
    pixels: usize,
    room: Room,
) -> Case {
    let lent = |(p0, p1)| {
        let mut list = vec![0; 2 * pixels + 2];
        let count = library::<CLOSING>(p0, p1, &mut list);
        let mut other = vec![0; count];
        assert_eq!(rust::<CLOSING>(p0, p1, &mut other), count, "{name}");
        assert_eq!(list[..count], other, "{name}");
        if let Room::Exact = room {
            list.truncate(count);
        }
        (p0, p1, RefCell::new(list))
    };
    let case = calls(
        name,
        strokes.into_iter().map(lent).collect(),
        |(p0, p1, list)| library::<CLOSING>(*p0, *p1, &mut list.borrow_mut()),
        |(p0, p1, list)| rust::<CLOSING>(*p0, *p1, &mut list.borrow_mut()),
    );
    Case { units: case.units * pixels, ..case }
}

fn library<const CLOSING: bool>(p0: Vec2, p1: Vec2, list: &mut [u32]) -> usize {
    if CLOSING {
        return edge2::overlapping_pixels_dda(SIDE, SIDE, p0, p1, list).unwrap();
    }
    edge2::pixels_inside(SIDE, SIDE, p0, p1, list).unwrap()
}

fn rust<const CLOSING: bool>(p0: Vec2, p1: Vec2, list: &mut [u32]) -> usize {
    let (start, room) = (list.as_mut_ptr(), list.len());
    if CLOSING {
        return unsafe { rust_abi::overlapping_pixels_dda(SIDE, SIDE, p0, p1, start, room) }.count;
    }
    unsafe { rust_abi::pixels_inside(SIDE, SIDE, p0, p1, start, room) }.count
}

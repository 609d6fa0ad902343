//! Boxes by how many tiles they overlap.

use super::{Sized, calls};
use crate::measure::Case;
use bagnoszyk::aabb2;
use bagnoszyk::shapes::Aabb2;
use std::cell::RefCell;

/// The side of a tile, and of the sheet in tiles.
const SIZE: usize = 16;
const SHEET: usize = 256;

pub fn cases() -> Vec<Case> {
    [1, 10, 100].map(|side| tiles(side).goal(0.01)).into()
}

pub fn sized() -> Vec<Sized> {
    [1, 3, 10, 32, 100, 250].map(|side| Sized::new("tiles: a tile", tiles(side))).into()
}

const BOXES: usize = 5;

/// Boxes that overlap `side` by `side` tiles.
fn tiles(side: usize) -> Case {
    let name = format!("tiles: {} tiles", side * side);
    let boxes = (0..BOXES).map(|k| {
        let low = (SIZE * k) as f32 + 0.25;
        let high = low + (SIZE * (side - 1)) as f32 + 15.5;
        let b = Aabb2 { min_x: low, min_y: low, max_x: high, max_y: high };
        let mut list = vec![0; side * side];
        let mut other = vec![0; side * side];
        assert_eq!(library(b, &mut list), rust(b, &mut other), "{name}");
        assert_eq!(list, other, "{name}");
        (b, RefCell::new(list))
    });
    let case = calls(
        &name,
        boxes.collect(),
        |(b, list)| library(*b, &mut list.borrow_mut()),
        |(b, list)| rust(*b, &mut list.borrow_mut()),
    );
    Case { units: case.units * side * side, ..case }
}

fn library(b: Aabb2, list: &mut [u32]) -> usize {
    aabb2::overlapping_tiles(b, SIZE, SHEET, SHEET, list).unwrap()
}

fn rust(b: Aabb2, list: &mut [u32]) -> usize {
    let (start, room) = (list.as_mut_ptr(), list.len());
    unsafe { rust_abi::overlapping_tiles(b, SIZE, SHEET, SHEET, start, room) }.count
}

//! The tiles by brute force on small sheets: those listed are exactly those that own a point to be covered, a point
//! of the box that is on the sheet (crates/tiles/specs/Cover.antt). Column i owns x from i × size up to and without
//! (i + 1) × size, rows likewise. Comparison is exact: an f32, and a product of two small whole numbers, is an f64
//! exactly.

use crate::options::Options;
use bagnoszyk::aabb2::overlapping_tiles;
use std::collections::BTreeSet;

const SIZES: [usize; 6] = [1, 2, 3, 7, 16, 4096];
const SIDES: [usize; 4] = [0, 1, 2, 4];

pub fn run(_: &Options) -> Result<(), String> {
    let mut boxes = 0u64;
    for size in SIZES {
        let places = places(size, 4);
        let ranges: Vec<_> = pairs(&places).collect();
        for width in SIDES {
            for height in SIDES {
                for (i, x) in ranges.iter().enumerate() {
                    // Another range in y, so that both dimensions have coordinates of every class.
                    let y = &ranges[(i * 7 + width + height) % ranges.len()];
                    check([x.0, y.0, x.1, y.1], size, [width, height], &places)?;
                    boxes += 1;
                }
            }
        }
    }
    println!("{boxes} boxes: the tiles listed are the owners of the points to be covered");
    tiny()
}

/// Coordinates of each class: zeros, tile edges, one ulp either side, the middle of a tile, off the sheet, and the
/// least size that the premises allow.
fn places(size: usize, count: usize) -> Vec<f32> {
    let mut places = vec![-0.0, -1.0e-3, 2f32.powi(-100), -(2f32.powi(-100)), -3.5, -1.0e6];
    for i in 0..=count + 1 {
        let edge = (i * size) as f32;
        places.extend([edge, edge + size as f32 / 2.0, edge.next_up().max(2f32.powi(-100))]);
        if i > 0 {
            places.push(edge.next_down());
        }
    }
    places
}

/// All ranges from one of the places to another that is not below it.
fn pairs(places: &[f32]) -> impl Iterator<Item = (f32, f32)> {
    places
        .iter()
        .flat_map(|low| places.iter().map(|high| (*low, *high)))
        .filter(|(low, high)| low <= high)
}

fn check(corners: [f32; 4], size: usize, sides: [usize; 2], places: &[f32]) -> Result<(), String> {
    let mut list = vec![0; sides[0] * sides[1]];
    let listed = overlapping_tiles(corners.into(), size, sides[0], sides[1], &mut list)
        .map(|count| list[..count].to_vec())
        .map_err(|refusal| format!("{corners:?} size {size} sides {sides:?}: {refusal}"))?;
    let columns = owners(corners[0], corners[2], size, sides[0], places);
    let rows = owners(corners[1], corners[3], size, sides[1], places);
    // By row, then by column: the numbers rise.
    let expected: Vec<u32> = rows
        .iter()
        .flat_map(|row| columns.iter().map(move |column| (row * sides[0] + column) as u32))
        .collect();
    if listed == expected {
        return Ok(());
    }
    Err(format!(
        "{corners:?} size {size} sides {sides:?}\n  listed {listed:?}\n  owners {expected:?}"
    ))
}

/// The columns, or rows, of the sheet that own a coordinate between low and high, both included, that is on the sheet.
fn owners(low: f32, high: f32, size: usize, side: usize, places: &[f32]) -> BTreeSet<usize> {
    let within = |x: &f32| low <= *x && *x <= high;
    let coordinates = places.iter().copied().filter(within).chain([low, high]);
    coordinates.filter_map(|x| owner(x, size, side)).collect()
}

/// The one place i of the sheet with i × size ≤ x < (i + 1) × size.
fn owner(x: f32, size: usize, side: usize) -> Option<usize> {
    let edge = |i: usize| (i * size) as f64;
    (0..side).find(|i| edge(*i) <= x.into() && f64::from(x) < edge(i + 1))
}

/// Why the theorem on the cover leaves out coordinates that are not zero and below 2^-100 in size: -2^-149 over 4,096
/// rounds to -0, and tile 0 is listed though no point of the box is on the sheet.
fn tiny() -> Result<(), String> {
    let corner = -f32::from_bits(1);
    let mut list = [7; 1];
    let count = overlapping_tiles([-1.0, -1.0, corner, corner].into(), 4096, 1, 1, &mut list);
    if count != Ok(1) || list != [0] {
        return Err(format!("high corner -2^-149, size 4096: {count:?} {list:?}"));
    }
    println!(
        "high corner -2^-149 with size 4096 lists tile 0, which owns no point of the box: the theorem leaves out coordinates that are not 0 and below 2^-100 in size"
    );
    Ok(())
}

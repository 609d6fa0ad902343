//! Makes an argument of a kind.

use super::Kind;
use super::edges;
use super::file;
use super::merge;
use super::source::Source;
use super::wholes;
use crate::ask::Args;
use crate::random::Random;

/// Adds an argument.
pub fn make(kind: Kind, source: Source, random: &mut Random, args: &mut Args) {
    match kind {
        Kind::File => return file::make(source, random, args),
        Kind::Files => return merge::make(source, random, args),
        Kind::Records => return file::make_records(source, random, args),
        Kind::Bits => return file::make_bits(source, random, args),
        _ => {}
    }
    let start = args.floats.len();
    for _ in 0..kind.floats().unwrap_or_else(|| list_length(kind, random)) {
        let float = source.float(&args.floats, random);
        args.floats.push(float);
    }
    let floats = &mut args.floats[start..];
    arrange(kind, floats, random);
    add_wholes(kind, floats, random, &mut args.wholes);
}

/// How many floats a list has. Most lists of lines have whole lines only.
fn list_length(kind: Kind, random: &mut Random) -> usize {
    if kind != Kind::Lines {
        return random.below(32) as usize;
    }
    let most = random.pick(&[3, 8, 40]);
    let lines = random.below(most);
    let more = if random.one_in(8) { random.below(4) } else { 0 };
    (4 * lines + more) as usize
}

/// Changes most arguments to what a caller would pass: ends in order, edges at right angles.
fn arrange(kind: Kind, floats: &mut [f32], random: &mut Random) {
    match kind {
        Kind::Radius if !random.one_in(4) => floats[0] = floats[0].abs(),
        Kind::Range => put_in_order(floats, 0, 1, random),
        Kind::Box | Kind::Tiles => {
            put_in_order(floats, 0, 2, random);
            put_in_order(floats, 1, 3, random);
        }
        Kind::Box3 => (0..3).for_each(|i| put_in_order(floats, i, i + 3, random)),
        Kind::Direction if random.one_in(4) => {
            floats[random.below(2) as usize] = random.pick(&[0.0, -0.0]);
        }
        // Along a face or an edge of a box, or no direction at all.
        Kind::Direction3 => {
            for x in floats.iter_mut().filter(|_| random.one_in(5)) {
                *x = if *x < 0.0 { -0.0 } else { 0.0 };
            }
        }
        Kind::Lines => {
            for [_, _, direction @ ..] in floats.as_chunks_mut::<4>().0 {
                arrange(Kind::Direction, direction, random);
            }
        }
        Kind::TurnedBox => {
            let ratio = random.pick(&[0.25, 0.5, 1.0, -2.0]);
            match random.below(8) {
                // No edge, and no area.
                0 => [floats[4], floats[5]] = [0.0, 0.0],
                1 => [floats[4], floats[5]] = [floats[2] * ratio, floats[3] * ratio],
                // Any two edges.
                2 | 3 => {}
                _ => [floats[4], floats[5]] = [-floats[3] * ratio, floats[2] * ratio],
            }
        }
        Kind::TurnedBox3 => edges::arrange(&mut floats[3..], random),
        // An affine transform has the last row 0 0 1. With 0 0 0 no point has an image.
        Kind::Matrix if random.one_in(2) => {
            let corner = random.pick(&[1.0, 1.0, 1.0, 0.0]);
            [floats[2], floats[5], floats[8]] = [0.0, 0.0, corner];
        }
        // Within the limit of a stroke's coordinates.
        Kind::Pen if !random.one_in(4) => {
            for x in floats.iter_mut().filter(|x| !(x.abs() <= 65_536.0)) {
                *x = random.around_zero(65_536) as f32;
            }
        }
        // In the quadrant of the image.
        Kind::Stroke | Kind::Ends if !random.one_in(4) => {
            floats.iter_mut().for_each(|x| *x = x.abs())
        }
        _ => {}
    }
}

fn put_in_order(floats: &mut [f32], low: usize, high: usize, random: &mut Random) {
    if floats[low] > floats[high] && !random.one_in(8) {
        floats.swap(low, high);
    }
}

fn add_wholes(kind: Kind, floats: &[f32], random: &mut Random, numbers: &mut Vec<u64>) {
    let side = |random: &mut Random| wholes::any(64, random);
    match kind {
        Kind::Side => numbers.push(side(random)),
        Kind::Index => numbers.push(wholes::any(6, random)),
        Kind::Corner => numbers.push(wholes::any(10, random)),
        Kind::Lines => numbers.push(room_for(4 * (floats.len() as u64 / 4), random)),
        Kind::Stroke => numbers.extend([side(random), side(random), room(random)]),
        Kind::Ends => numbers.extend([side(random), side(random)]),
        Kind::Tiles => {
            let size = tile_size(floats, random);
            numbers.extend([size, side(random), side(random), room(random)]);
        }
        _ => {}
    }
}

/// The room of a list: often too short, often just enough.
fn room(random: &mut Random) -> u64 {
    let most = random.pick(&[4, 20, 400, 4_000]);
    random.below(most)
}

/// The room for so many entries: exactly enough, one or a line's too few, or more.
fn room_for(entries: u64, random: &mut Random) -> u64 {
    match random.below(8) {
        0 => entries.saturating_sub(1),
        1 => entries.saturating_sub(4),
        2 | 3 => entries + random.below(5),
        4 => entries + wholes::any(64, random).min(20_000),
        _ => entries,
    }
}

/// The size of a tile, such that the box has no more than some hundred columns and rows:
/// the Rust visits them all, those off the sheet too.
fn tile_size(corners: &[f32], random: &mut Random) -> u64 {
    let far = corners.iter().fold(0.0f32, |far, x| far.max(x.abs()));
    let least = far.min(1_048_576.0) / 256.0;
    wholes::any(64, random).max(least as u64)
}

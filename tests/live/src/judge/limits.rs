//! The numbers of the refusals (docs/GUIDE.md has the table), and the checks of the limits, in their order.
//!
//! The Rust makes none of these checks: without them it does not end, or it answers where the library
//! refuses. Where the library refuses because the Rust panics (5 to 9, 16 and 17), a row of `judge`
//! says which number stands for the panic.

use crate::answer::Refused;

pub const ROOM: u32 = 1;
pub const SAME_ENDS: u32 = 2;
pub const COORDINATE: u32 = 3;
pub const SIZE: u32 = 4;
pub const ORDER: u32 = 5;
pub const RADIUS: u32 = 6;
pub const NAN_LENGTH: u32 = 7;
pub const NO_IMAGE: u32 = 8;
pub const INDEX: u32 = 9;
pub const LINES: u32 = 14;
pub const NOT_FINITE: u32 = 15;
pub const NAN_PROJECTION: u32 = 16;
pub const CORNER: u32 = 17;

/// The largest side of an image or of a sheet.
const SIDE: u64 = 16_384;

/// What a check gives: nothing, or a refusal.
type Checked = Result<(), Refused>;

/// `overlapping_pixels_dda`, `pixels_inside` and `pixels_bound`: 4; 15 or 3; 2. `room` has the 1 of the walks.
pub fn stroke(width: u64, height: u64, ends: &[f32; 4]) -> Checked {
    refuse(width > SIDE || height > SIDE, SIZE)?;
    coordinates(ends)?;
    refuse(ends[..2] == ends[2..], SAME_ENDS)
}

/// `ink`: 15 or 3; then 5, in x and in y.
pub fn ink(ends: &[f32; 4], &[low_x, low_y, high_x, high_y]: &[f32; 4]) -> Checked {
    coordinates(ends)?;
    refuse(!(low_x <= high_x), ORDER)?;
    refuse(!(low_y <= high_y), ORDER)
}

/// The ends of a stroke: 15 or 3, with the place of the first coordinate that is not finite or too large.
fn coordinates(ends: &[f32; 4]) -> Checked {
    for (place, x) in ends.iter().enumerate() {
        refuse_at(!x.is_finite(), NOT_FINITE, place)?;
        refuse_at(x.abs() > 65_536.0, COORDINATE, place)?;
    }
    Ok(())
}

/// `overlapping_tiles`: 4, 3. `room` has the 1.
pub fn tiles(corners: &[f32; 4], size: u64, width: u64, height: u64) -> Checked {
    refuse(size == 0 || size > 4_096 || width > SIDE || height > SIDE, SIZE)?;
    refuse(!corners.iter().all(|x| x.abs() <= 1_048_576.0), COORDINATE)
}

/// `rasterize`: 4.
pub fn rasterize(width: u64, height: u64) -> Checked {
    refuse(width > SIDE || height > SIDE, SIZE)
}

/// `intersections_against_lines`, by the floats after the last whole line: 14. `room` has the 1.
pub fn lines(rest: usize) -> Checked {
    refuse(rest != 0, LINES)
}

/// A lent list: 1.
pub fn room(entries: usize, room: u64) -> Checked {
    refuse(entries as u64 > room, ROOM)
}

fn refuse(when: bool, number: u32) -> Checked {
    refuse_at(when, number, 0)
}

fn refuse_at(when: bool, number: u32, place: usize) -> Checked {
    if when { Err(Refused { number, place }) } else { Ok(()) }
}

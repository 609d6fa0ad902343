//! The Rust's routines behind the library's own C ABI, so that both sides of a measurement make the same call. What the Rust does not have is
//! written here plainly, and its comment says so.
//!
//! No exported function here may be inlined: a call into the library is not.

use bagnoszyk::answers::{
    ANSWERED, BoolAnswer, CountAnswer, InkAnswer, IntervalAnswer, NONE, PointAnswer, ReadAnswer,
};
use bagnoszyk::limits::{LINE_FLOATS, LINE_RESULT_FLOATS};
use bagnoszyk::shapes::{Aabb2, Aabb3, Obb2, Obb3, OnEdge, SqrtDigits, Vec2, Vec3};
use del_geo_core::obb2::OBB2Trait;
use del_geo_core::{aabb, aabb2, edge2, obb3, vec2};

#[inline(never)]
pub extern "C" fn intersections_against_line(
    b: Aabb2,
    origin: Vec2,
    direction: Vec2,
) -> IntervalAnswer {
    let (b, origin, direction) = (b.into(), origin.into(), direction.into());
    interval(aabb::intersections_against_line::<f32, 2, 4>(&b, &origin, &direction))
}

/// The same in space.
#[inline(never)]
pub extern "C" fn intersections_against_line3(
    b: Aabb3,
    origin: Vec3,
    direction: Vec3,
) -> IntervalAnswer {
    let (b, origin, direction) = (b.into(), origin.into(), direction.into());
    interval(aabb::intersections_against_line::<f32, 3, 6>(&b, &origin, &direction))
}

/// The Rust tells no edge.
#[inline(always)]
fn interval(hit: Option<(f32, f32)>) -> IntervalAnswer {
    match hit {
        Some((tmin, tmax)) => IntervalAnswer { status: ANSWERED, tmin, tmax, edge: 0 },
        None => IntervalAnswer { status: NONE, tmin: 0.0, tmax: 0.0, edge: 0 },
    }
}

/// The Rust has no routine for a whole face: a loop over the one for a line, which is inlined here.
///
/// # Safety
/// The lists start where they are said to, with the lengths given.
#[inline(never)]
pub unsafe extern "C" fn intersections_against_lines(
    b: Aabb2,
    lines: *const f32,
    lines_length: usize,
    out: *mut f32,
    out_length: usize,
) -> CountAnswer {
    let b = b.into();
    let lines = unsafe { std::slice::from_raw_parts(lines, lines_length) };
    let out = unsafe { std::slice::from_raw_parts_mut(out, out_length) };
    let (lines, _) = lines.as_chunks::<LINE_FLOATS>();
    let (places, _) = out.as_chunks_mut::<LINE_RESULT_FLOATS>();
    for (&[x, y, dx, dy], place) in lines.iter().zip(places) {
        *place = match aabb::intersections_against_line::<f32, 2, 4>(&b, &[x, y], &[dx, dy]) {
            Some((tmin, tmax)) => [1.0, tmin, tmax, 0.0],
            None => [0.0; LINE_RESULT_FLOATS],
        };
    }
    CountAnswer { status: ANSWERED, count: LINE_RESULT_FLOATS * lines.len(), place: 0 }
}

/// # Safety
/// The list starts at `list` and has room for every entry.
#[inline(never)]
pub unsafe extern "C" fn overlapping_pixels_dda(
    width: usize,
    height: usize,
    p0: Vec2,
    p1: Vec2,
    list: *mut u32,
    room: usize,
) -> CountAnswer {
    let entries = edge2::overlapping_pixels_dda::<f32>((width, height), &p0.into(), &p1.into());
    let list = unsafe { std::slice::from_raw_parts_mut(list, room) };
    copied(entries.iter().copied(), entries.len(), list)
}

/// # Safety
/// The list starts at `list` and has room for every entry but the last.
#[inline(never)]
pub unsafe extern "C" fn pixels_inside(
    width: usize,
    height: usize,
    p0: Vec2,
    p1: Vec2,
    list: *mut u32,
    room: usize,
) -> CountAnswer {
    let entries = edge2::overlapping_pixels_dda::<f32>((width, height), &p0.into(), &p1.into());
    let entries = &entries[..entries.len() - 1];
    let list = unsafe { std::slice::from_raw_parts_mut(list, room) };
    copied(entries.iter().copied(), entries.len(), list)
}

/// The Rust has no such routine. In its place: its clip, bounded to 0..1, and its length between its positions, with none of the library's
/// refusals.
#[inline(never)]
pub extern "C" fn ink(p0: Vec2, p1: Vec2, b: Aabb2) -> InkAnswer {
    let (p0, p1): ([f32; 2], [f32; 2]) = (p0.into(), p1.into());
    let direction = vec2::sub(&p1, &p0);
    let clipped = aabb::intersections_against_line::<f32, 2, 4>(&b.into(), &p0, &direction);
    let position = |ratio| edge2::position_from_ratio(&p0, &p1, ratio);
    let value = match clipped.map(|(tmin, tmax)| (tmin.max(0.0), tmax.min(1.0))) {
        Some((from, to)) if from <= to => edge2::length(&position(from), &position(to)),
        _ => 0.0,
    };
    InkAnswer { status: ANSWERED, value, place: 0 }
}

/// # Safety
/// The list starts at `list` and has room for every tile.
#[inline(never)]
pub unsafe extern "C" fn overlapping_tiles(
    b: Aabb2,
    size: usize,
    shape_width: usize,
    shape_height: usize,
    list: *mut u32,
    room: usize,
) -> CountAnswer {
    let tiles = aabb2::overlapping_tiles(&b.into(), size, (shape_width, shape_height));
    let list = unsafe { std::slice::from_raw_parts_mut(list, room) };
    copied(tiles.iter().copied(), tiles.len(), list)
}

#[inline(never)]
pub extern "C" fn is_intersect_obb2(a: Obb2, b: Obb2) -> bool {
    <[f32; 6]>::from(a).is_intersect_obb2(&b.into())
}

#[inline(never)]
pub extern "C" fn is_intersect_aabb2(o: Obb2, b: Aabb2) -> bool {
    <[f32; 6]>::from(o).is_intersect_aabb2(&b.into())
}

/// No projection may be a NaN: the Rust would panic.
#[inline(never)]
pub extern "C" fn is_intersect_to_obb3(a: Obb3, b: Obb3) -> BoolAnswer {
    let value = obb3::is_intersect_to_obb3::<f32>(&a.into(), &b.into());
    BoolAnswer { status: ANSWERED, value }
}

#[inline(never)]
pub extern "C" fn obb2_nearest_point2(o: Obb2, p: Vec2) -> PointAnswer {
    PointAnswer { status: ANSWERED, value: <[f32; 6]>::from(o).nearest_point2(&p.into()).into() }
}

#[inline(never)]
pub extern "C" fn aabb2_nearest_point2(b: Aabb2, p: Vec2) -> PointAnswer {
    PointAnswer { status: ANSWERED, value: aabb2::nearest_point2(&b.into(), &p.into()).into() }
}

#[inline(never)]
pub extern "C" fn nearest_to_point(s: Vec2, e: Vec2, p: Vec2) -> OnEdge {
    let (ratio, point) = edge2::nearest_to_point::<f32>(&s.into(), &e.into(), &p.into());
    OnEdge { ratio, point: point.into() }
}

/// The processor's instruction for a square root.
#[inline(never)]
pub extern "C" fn sqrt(x: f32) -> f32 {
    x.sqrt()
}

/// The Rust does not count digits. In its place: a count by the bits of the root, where the root's square, exact in f64, is the number.
#[inline(never)]
pub extern "C" fn sqrt_digits(x: f32) -> SqrtDigits {
    let root = x.sqrt();
    let exact = f64::from(root) * f64::from(root) == f64::from(x);
    // The root of a number above zero is never subnormal: it has its leading 1.
    let zeros = (root.to_bits() | 0x0080_0000).trailing_zeros();
    let digits = if !(x > 0.0 && x.is_finite()) {
        0
    } else if exact {
        24 - zeros
    } else {
        24
    };
    SqrtDigits { root, digits }
}

/// The Rust has no hatch list: reader and writer are those of tests/hatch-list.
///
/// # Safety
/// The bytes and the list start where they are said to, with the lengths given.
#[inline(never)]
pub unsafe extern "C" fn read_floats(
    bytes: *const u8,
    length: usize,
    list: *mut f32,
    room: usize,
) -> ReadAnswer {
    unsafe { read(bytes, length, list, room, f32::from_le_bytes) }
}

/// # Safety
/// That of `read_floats`.
#[inline(never)]
pub unsafe extern "C" fn read_patterns(
    bytes: *const u8,
    length: usize,
    list: *mut u32,
    room: usize,
) -> ReadAnswer {
    unsafe { read(bytes, length, list, room, u32::from_le_bytes) }
}

/// # Safety
/// That of `read_floats`.
#[inline(always)]
unsafe fn read<T>(
    bytes: *const u8,
    length: usize,
    list: *mut T,
    room: usize,
    entry: impl Fn([u8; 4]) -> T,
) -> ReadAnswer {
    let bytes = unsafe { std::slice::from_raw_parts(bytes, length) };
    let list = unsafe { std::slice::from_raw_parts_mut(list, room) };
    match hatch_list::read(bytes, room) {
        Ok(hatch_list::Records { version, count, floats }) => {
            for (place, &float) in list.iter_mut().zip(floats) {
                *place = entry(float);
            }
            ReadAnswer { status: ANSWERED, version, count, place: 0 }
        }
        Err(hatch_list::Refused { number: status, place }) => {
            ReadAnswer { status, version: 0, count: 0, place }
        }
    }
}

/// # Safety
/// The lists start where they are said to, with the lengths given.
#[inline(never)]
pub unsafe extern "C" fn write_patterns(
    patterns: *const u32,
    length: usize,
    bytes: *mut u8,
    room: usize,
) -> CountAnswer {
    let patterns = unsafe { std::slice::from_raw_parts(patterns, length) };
    let bytes = unsafe { std::slice::from_raw_parts_mut(bytes, room) };
    match hatch_list::write(patterns, bytes) {
        Ok(count) => CountAnswer { status: ANSWERED, count, place: 0 },
        Err(refused) => CountAnswer { status: refused.number, count: 0, place: 0 },
    }
}

/// The same into a new Vec.
#[inline(never)]
pub fn written(patterns: &[u32]) -> Option<Vec<u8>> {
    hatch_list::written(patterns).ok()
}

/// The Rust has no merge of hatch lists: that of tests/hatch-list, by a HashSet of the records, into a new Vec.
#[inline(never)]
pub fn merged(first: &[u8], second: &[u8]) -> Result<Vec<u8>, hatch_list::RefusedIn> {
    hatch_list::merged(first, second)
}

fn copied(entries: impl Iterator<Item = usize>, count: usize, list: &mut [u32]) -> CountAnswer {
    for (place, entry) in list[..count].iter_mut().zip(entries) {
        *place = entry as u32;
    }
    CountAnswer { status: ANSWERED, count, place: 0 }
}

//! Solid boxes: lines of all kinds against one, in random order; and turned ones, do they overlap?

use super::calls;
use super::clip::ends;
use crate::measure::Case;
use crate::random::{Random, point3};
use bagnoszyk::shapes::{Aabb3, Obb3, Vec3};
use bagnoszyk::{aabb_3, obb3};

const SOLID: Aabb3 =
    Aabb3 { min_x: 0.0, min_y: 0.0, min_z: 0.0, max_x: 120.0, max_y: 80.0, max_z: 40.0 };

const LINES: usize = 3000;
const PAIRS: usize = 1000;

pub fn cases() -> Vec<Case> {
    // Boxes whose centres are within 1 of the origin in each coordinate overlap most times. The Rust's own random boxes are such.
    vec![clip(), two_turned(1, "most overlap"), two_turned(6, "most apart")]
}

fn clip() -> Case {
    let mut random = Random::new(1, "clip in space");
    calls(
        "clip in space: 3,000 lines of all kinds",
        (0..LINES).map(|_| line(&mut random)).collect(),
        |&(origin, direction)| {
            aabb_3::intersections_against_line(SOLID, origin, direction).map(ends)
        },
        |&(origin, direction)| {
            rust_abi::intersections_against_line3(SOLID, origin, direction).option().map(ends)
        },
    )
    .goal(1.0)
}

/// Origin and direction. Three in eight are parallel to a face, and many miss.
fn line(random: &mut Random) -> (Vec3, Vec3) {
    let origin = point3(random, -20, 140);
    let mut direction = point3(random, -4, 4);
    match random.below(8) {
        0 => direction.x = 0.0,
        1 => direction.y = 0.0,
        2 => direction.z = 0.0,
        _ => {}
    }
    (origin, direction)
}

fn two_turned(spread: i64, share: &str) -> Case {
    let mut random = Random::new(1, share);
    calls(
        &format!("overlap: two turned solids, {share}"),
        (0..PAIRS).map(|_| (turned(&mut random, spread), turned(&mut random, spread))).collect(),
        |&(a, b)| obb3::is_intersect_to_obb3(a, b),
        |&(a, b)| rust_abi::is_intersect_to_obb3(a, b).result(),
    )
    .goal(1.0)
}

/// A centre, and three half edges at right angles.
fn turned(random: &mut Random, spread: i64) -> Obb3 {
    let c = point3(random, -spread, spread);
    let [u, v, w] = std::array::from_fn(|_| point3(random, -1, 1));
    let v = orthogonal(u, v);
    let w = orthogonal(v, orthogonal(u, w));
    Obb3::from([c.x, c.y, c.z, u.x, u.y, u.z, v.x, v.y, v.z, w.x, w.y, w.z])
}

/// The second edge without its share along the first.
fn orthogonal(u: Vec3, v: Vec3) -> Vec3 {
    let share = (u.x * v.x + u.y * v.y + u.z * v.z) / (u.x * u.x + u.y * u.y + u.z * u.z);
    Vec3 { x: v.x - share * u.x, y: v.y - share * u.y, z: v.z - share * u.z }
}

//! Turned boxes: do they overlap?

use super::calls;
use crate::measure::Case;
use crate::random::{Random, point};
use bagnoszyk::obb2;
use bagnoszyk::shapes::{Aabb2, Obb2};

const PAIRS: usize = 1000;

pub fn cases() -> Vec<Case> {
    // Boxes whose centres are within 1 of the origin in each coordinate overlap most times. The Rust's own random boxes are such.
    [(1, "most overlap"), (6, "most apart")]
        .into_iter()
        .flat_map(|(spread, share)| [two_turned(spread, share), turned_and_upright(spread, share)])
        .collect()
}

fn two_turned(spread: i64, share: &str) -> Case {
    let mut random = Random::new(1, share);
    calls(
        &format!("overlap: two turned boxes, {share}"),
        (0..PAIRS).map(|_| (turned(&mut random, spread), turned(&mut random, spread))).collect(),
        |&(a, b)| obb2::is_intersect_obb2(a, b),
        |&(a, b)| rust_abi::is_intersect_obb2(a, b),
    )
    .goal(0.6)
}

fn turned_and_upright(spread: i64, share: &str) -> Case {
    let mut random = Random::new(2, share);
    calls(
        &format!("overlap: a turned and an upright box, {share}"),
        (0..PAIRS).map(|_| (turned(&mut random, spread), upright(&mut random, spread))).collect(),
        |&(a, b)| obb2::is_intersect_aabb2(a, b),
        |&(a, b)| rust_abi::is_intersect_aabb2(a, b),
    )
    .goal(0.6)
}

/// A centre, and two half edges at a right angle.
pub fn turned(random: &mut Random, spread: i64) -> Obb2 {
    let (centre, u, v) =
        (point(random, -spread, spread), point(random, -1, 1), point(random, -1, 1));
    let share = (u.x * v.x + u.y * v.y) / (u.x * u.x + u.y * u.y);
    Obb2::from([centre.x, centre.y, u.x, u.y, v.x - share * u.x, v.y - share * u.y])
}

fn upright(random: &mut Random, spread: i64) -> Aabb2 {
    let (centre, half) = (point(random, -spread, spread), point(random, 0, 1));
    Aabb2 {
        min_x: centre.x - half.x,
        min_y: centre.y - half.y,
        max_x: centre.x + half.x,
        max_y: centre.y + half.y,
    }
}

//! Inputs that are the same in every run.

// The random numbers of tests/live, which uses more of their functions.
#[allow(dead_code)]
#[path = "../../live/src/random.rs"]
mod numbers;

use bagnoszyk::shapes::{Vec2, Vec3};
pub use numbers::Random;

/// A number from low to high, in steps of 1/64.
pub fn between(random: &mut Random, low: i64, high: i64) -> f32 {
    (low * 64 + random.below(64 * (high - low) as u64 + 1) as i64) as f32 / 64.0
}

pub fn point(random: &mut Random, low: i64, high: i64) -> Vec2 {
    let x = between(random, low, high);
    Vec2 { x, y: between(random, low, high) }
}

pub fn point3(random: &mut Random, low: i64, high: i64) -> Vec3 {
    let Vec2 { x, y } = point(random, low, high);
    Vec3 { x, y, z: between(random, low, high) }
}

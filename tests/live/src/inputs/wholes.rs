//! Whole numbers.

use crate::random::Random;

/// The library's limits with one below and one above, the ends of the integer types, and numbers
/// that no f32 is equal to.
const SPECIALS: [u64; 20] = [
    0,
    1,
    2,
    1_999,
    2_000,
    2_001,
    4_095,
    4_096,
    4_097,
    16_383,
    16_384,
    16_385,
    65_536,
    1 << 31,
    (1 << 32) - 1,
    1 << 32,
    (1 << 53) + 1,
    (1 << 62) + 1,
    1 << 63,
    u64::MAX,
];

/// Mostly a number below `small`.
pub fn any(small: u64, random: &mut Random) -> u64 {
    if random.one_in(8) { random.pick(&SPECIALS) } else { random.below(small) }
}

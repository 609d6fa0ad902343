//! Floats of every class, and those near which float code errs.

use crate::random::Random;
use std::sync::LazyLock;

/// Zero, subnormal, the ends of the normal ones, infinity, quiet and signalling NaNs.
const CLASSES: [u32; 12] = [
    0x0000_0000,
    0x0000_0001,
    0x0000_0002,
    0x0040_0000,
    0x007f_ffff,
    0x0080_0000,
    0x7f7f_ffff,
    0x7f80_0000,
    0x7fc0_0000,
    0x7fff_ffff,
    0x7f80_0001,
    0x7fbf_ffff,
];

/// Halves, whole numbers and decimals.
const PLAIN: [f32; 13] =
    [0.5, 1.5, 2.5, 3.5, 4_194_303.5, 4_194_304.5, 8_388_607.5, 3.0, 7.0, 10.0, 100.0, 0.1, 12.7];

/// The library's limits, and powers of two: 2^0, 2^1; 2^22, 2^23 and 2^24, from which on neighbouring f32s are at least
/// 1/2, 1 and 2 apart; and the ends of the integer types, 2^31, 2^32, 2^63, 2^64.
const MARKS: [f32; 14] = [
    1.0,
    2.0,
    2_000.0,
    4_096.0,
    16_384.0,
    65_536.0,
    1_048_576.0,
    4_194_304.0,
    8_388_608.0,
    16_777_216.0,
    2_147_483_648.0,
    4_294_967_296.0,
    9_223_372_036_854_775_808.0,
    18_446_744_073_709_551_616.0,
];

/// All of these, the marks with both neighbours; each followed by its negative.
pub static SPECIALS: LazyLock<Vec<f32>> = LazyLock::new(|| {
    let classes = CLASSES.into_iter().map(f32::from_bits);
    let marks = MARKS.into_iter().flat_map(|x| [x.next_down(), x, x.next_up()]);
    classes.chain(PLAIN).chain(marks).flat_map(|x| [x, -x]).collect()
});

/// A float of a random class.
pub fn any(random: &mut Random) -> f32 {
    let x = match random.below(15) {
        0 | 1 => random.pick(&SPECIALS),
        2 => f32::from_bits(random.pick(&CLASSES)),
        3 => random.pick(&MARKS),
        4 => subnormal(random),
        5 => power_of_two(random),
        6 => neighbour(power_of_two(random), random),
        7 => whole(random),
        8 => whole(random) + 0.5,
        9 => random.below(200) as f32,
        10 => random.below(1_000) as f32 / 10.0,
        // A square, whose root is exact.
        11 => random.below(1 << 12).pow(2) as f32,
        _ => f32::from_bits(random.bits() as u32),
    };
    if random.one_in(2) { -x } else { x }
}

/// The f32 one step above or below.
pub fn neighbour(x: f32, random: &mut Random) -> f32 {
    if random.one_in(2) { x.next_up() } else { x.next_down() }
}

fn subnormal(random: &mut Random) -> f32 {
    f32::from_bits(random.below(1 << 23) as u32)
}

/// 2^-149 to 2^127: the 23 subnormal ones are one bit of the fraction, the others an exponent alone.
fn power_of_two(random: &mut Random) -> f32 {
    let n = random.below(23 + 254) as u32;
    f32::from_bits(if n < 23 { 1 << n } else { (n - 22) << 23 })
}

/// A whole number of up to 33 binary digits, short ones as often as long ones.
fn whole(random: &mut Random) -> f32 {
    let digits = random.below(34);
    random.below(1 << digits) as f32
}

//! The exact difference of two floats, in whole numbers: what the library's bound on the entries of a stroke is compared with.

use super::parts::parts;

/// An f32 of 65,536 at most in size is a whole number of units of 2^-149, with at most 166 binary digits: too many for an i128, so it is kept in
/// two parts. The low part has the last 75 digits.
const LOW_DIGITS: u32 = 75;
const LOW_END: i128 = 1 << LOW_DIGITS;
/// How many of the high part's units make 1.
const ONE: i128 = 1 << (149 - LOW_DIGITS);

/// The difference in size, rounded up to a whole number, of two floats of 65,536 at most.
pub fn rounded_up(p: f32, q: f32) -> u64 {
    let (lower, higher) = (cut(p.min(q)), cut(p.max(q)));
    let low = higher.1 - lower.1;
    // What is left of the low part, however little, is rounded up to one of the high part's units.
    let units =
        higher.0 - lower.0 + low.div_euclid(LOW_END) + i128::from(low.rem_euclid(LOW_END) > 0);
    ((units + ONE - 1) / ONE) as u64
}

/// The high and the low part, both with the float's sign.
fn cut(x: f32) -> (i128, i128) {
    let (significand, exponent) = parts(x);
    let (significand, shift) = (i128::from(significand), (exponent + 149) as u32);
    let (high, low) = match shift.checked_sub(LOW_DIGITS) {
        Some(shift) => (significand << shift, 0),
        None => (significand << shift >> LOW_DIGITS, (significand << shift) % LOW_END),
    };
    if x < 0.0 { (-high, -low) } else { (high, low) }
}

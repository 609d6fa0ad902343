//! The square root, and how many of its binary digits are worked, by integer square roots: what the library's are compared with. The digits are
//! counted from the leading 1 up to the last 1 of an exact root; they are 24 for any other root, and 0 for a NaN, a zero, an infinity or a
//! negative.

use super::parts::parts;

/// The float nearest to the root, and how many of its binary digits are worked.
pub fn sqrt_digits(x: f32) -> (f32, u32) {
    if x.is_nan() || x <= 0.0 || x.is_infinite() {
        return (x.sqrt(), 0);
    }
    let (significand, exponent) = odd_parts(x);
    (nearest_root(significand, exponent), digits(significand, exponent))
}

/// x = significand * 2^exponent, where the significand is odd.
fn odd_parts(x: f32) -> (u64, i32) {
    let (significand, exponent) = parts(x);
    let zeros = significand.trailing_zeros();
    (u64::from(significand >> zeros), exponent + zeros as i32)
}

/// An odd number times a power of two has an exact root exactly if the number is a square and the exponent even: the root's digits up to the
/// last 1 are then those of the number's root. Any other root has no last digit, and the 24 of an f32 are worked.
fn digits(significand: u64, exponent: i32) -> u32 {
    let root = significand.isqrt();
    let exact = root * root == significand && exponent % 2 == 0;
    if exact { root.ilog2() + 1 } else { 24 }
}

/// The root of a number of 47 or 48 binary digits, rounded down, has 24. It is rounded up if more than the root is left over: then the exact root
/// is more than a half above it.
fn nearest_root(significand: u64, exponent: i32) -> f32 {
    let more = 47 - (significand.ilog2() as i32 + 1);
    let more = if (exponent - more) % 2 == 0 { more } else { more + 1 };
    let number = significand << more;
    let root = number.isqrt();
    let rounded = if number - root * root > root { root + 1 } else { root };
    // Both factors and the product are exact in f64, and the product is an f32.
    (rounded as f64 * 2f64.powi((exponent - more) / 2)) as f32
}

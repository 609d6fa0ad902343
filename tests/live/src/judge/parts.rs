//! A float as a whole number times a power of two.

/// Significand and exponent: a finite float is significand * 2^exponent in size.
pub fn parts(x: f32) -> (u32, i32) {
    let (field, fraction) = (x.to_bits() >> 23 & 0xff, x.to_bits() & 0x007f_ffff);
    // A field of 0 marks a subnormal, which has no leading 1 of its own.
    match field {
        0 => (fraction, -149),
        _ => (fraction | 0x0080_0000, field as i32 - 150),
    }
}

//! The edge by which a line comes into a box, written from the words of the header. The library's edge is compared with it: the Rust tells none.

/// The number of the edge where the interval of the line's hit starts at `tmin`: 0 for none, and then the low and the high edge of each dimension in
/// turn. `b` is the low corner and the high one.
pub fn number<const N: usize>(
    b: &[f32],
    origin: &[f32; N],
    direction: &[f32; N],
    tmin: f32,
) -> u32 {
    // The interval still starts at the lowest finite float, so no edge is told.
    if tmin == f32::MIN {
        return 0;
    }
    let (low, high) = b.split_at(N);
    for k in 0..N {
        // A zero of either sign: the dimension has no quotients.
        if direction[k] == 0.0 {
            continue;
        }
        let by_low = (low[k] - origin[k]) / direction[k];
        let by_high = (high[k] - origin[k]) / direction[k];
        // Of a NaN and a number `min` gives the number. Two NaNs equal nothing.
        let smaller = by_low.min(by_high);
        if smaller == tmin {
            return 2 * k as u32 + if by_low == smaller { 1 } else { 2 };
        }
    }
    unreachable!("no edge gives {tmin}, where a hit starts")
}

/// A hit's interval with that number, for a line or a ray.
pub fn told<const N: usize>(
    hit: Option<(f32, f32)>,
    b: &[f32],
    origin: &[f32; N],
    direction: &[f32; N],
) -> Option<(f32, f32, u32)> {
    hit.map(|(tmin, tmax)| (tmin, tmax, number(b, origin, direction, tmin)))
}

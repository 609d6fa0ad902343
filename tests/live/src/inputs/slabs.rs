//! Boxes and lines, dimension by dimension, at which the edge by which a line comes in is not plain: through corners, along edges, of boxes with no
//! extent, at the lowest finite float, with infinities and NaNs.

use super::floats::{any, neighbour};
use crate::random::Random;
use std::array;

/// What one dimension has of a box and a line.
#[derive(Clone, Copy, Debug)]
pub struct Slab {
    pub low: f32,
    pub high: f32,
    pub origin: f32,
    pub direction: f32,
}

impl Slab {
    /// The four numbers: the places where an infinity or a NaN may stand.
    pub fn numbers(&self) -> [f32; 4] {
        [self.low, self.high, self.origin, self.direction]
    }

    /// What is compared with the start of the interval: nothing, where the line goes along.
    pub fn quotients(&self) -> Option<[f32; 2]> {
        let Slab { low, high, origin, direction } = *self;
        (direction != 0.0).then(|| [(low - origin) / direction, (high - origin) / direction])
    }

    fn from([low, high, origin, direction]: [f32; 4]) -> Self {
        Slab { low, high, origin, direction }
    }

    /// The mirror image, with the corners exchanged.
    pub fn mirrored(&self) -> Self {
        Slab::from([-self.high, -self.low, -self.origin, -self.direction])
    }
}

/// The floats of a request: the low corner, the high one, origin and direction.
pub fn floats(slabs: &[Slab]) -> Vec<f32> {
    (0..4).flat_map(|place| slabs.iter().map(move |slab| slab.numbers()[place])).collect()
}

/// Many of the dimensions are entered at the same parameter, so that corners come often.
pub fn slabs<const N: usize>(random: &mut Random) -> [Slab; N] {
    let t = random.pick(&[-2.0, -1.0, 0.0, 0.0, 0.5, 3.0]);
    array::from_fn(|_| slab(t, random))
}

fn slab(t: f32, random: &mut Random) -> Slab {
    let mut slab = match random.below(16) {
        0..=5 => entered(t, random),
        6..=8 => along(random),
        9 | 10 => far(random),
        11 => tiny(random),
        12..=14 => drawn(random),
        _ => Slab::from(array::from_fn(|_| any(random))),
    };
    if random.one_in(12) {
        slab.high = slab.low;
    }
    if random.one_in(12) {
        (slab.low, slab.high) = (slab.high, slab.low);
    }
    let mut numbers = slab.numbers();
    if random.one_in(24) {
        let special = random.pick(&[f32::INFINITY, f32::NEG_INFINITY, f32::NAN]);
        numbers[random.below(4) as usize] = special;
    }
    // Zeros of either sign.
    numbers.iter_mut().filter(|x| **x == 0.0 && random.one_in(2)).for_each(|x| *x = -*x);
    Slab::from(numbers)
}

fn whole(random: &mut Random) -> f32 {
    random.around_zero(4) as f32
}

/// A box from one whole number to another, in either order.
fn drawn(random: &mut Random) -> Slab {
    Slab::from(array::from_fn(|_| whole(random)))
}

/// Entered at this parameter, exactly: each number is a multiple of an eighth.
fn entered(t: f32, random: &mut Random) -> Slab {
    let direction = random.pick(&[0.25, 0.5, 1.0, 2.0, -0.25, -0.5, -1.0, -2.0]);
    let origin = whole(random);
    let entry = origin + t * direction;
    let exit = entry + random.below(5) as f32 * direction.signum();
    Slab { low: entry.min(exit), high: entry.max(exit), origin, direction }
}

/// Along an edge of the box, between the edges or beside the box.
fn along(random: &mut Random) -> Slab {
    let low = whole(random);
    let high = low + random.below(4) as f32;
    let origin = random.pick(&[low, high, (low + high) / 2.0, low - 1.0, high + 1.0]);
    Slab { low, high, origin, direction: 0.0 }
}

/// Entered at the lowest finite float, exactly; one float later, or at an infinity.
fn far(random: &mut Random) -> Slab {
    let direction = random.pick(&[0.5, 1.0, -0.5, -1.0]);
    let lowest = f32::MIN * direction;
    let later = f32::from_bits(lowest.to_bits() - 1);
    let earlier = f32::MIN * direction.signum();
    let entry = random.pick(&[lowest, lowest, lowest, later, earlier, earlier * 2.0]);
    let exit = random.pick(&[0.0, 1.0, -lowest, entry]);
    Slab {
        low: if direction > 0.0 { entry } else { exit },
        high: if direction > 0.0 { exit } else { entry },
        // So small that the difference from the entry rounds to the entry.
        origin: whole(random),
        direction,
    }
}

/// Few units of the smallest float above 0, or about the smallest normal one.
fn tiny(random: &mut Random) -> Slab {
    let float = |random: &mut Random| {
        let from = random.pick(&[0, 0, 0, f32::MIN_POSITIVE.to_bits() - 3]);
        let x = f32::from_bits(from + random.below(6) as u32);
        if random.one_in(2) { -x } else { x }
    };
    let mut slab = Slab::from(array::from_fn(|_| float(random)));
    if random.one_in(2) {
        slab.direction = neighbour(random.pick(&[1.0, -1.0]), random);
    }
    slab
}

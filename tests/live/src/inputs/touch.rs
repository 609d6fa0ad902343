//! Boxes that touch, ends a whole number apart, strokes along the edges of a box, and all of these one ulp off.

mod space;

use super::Kind;
use super::floats::neighbour;
use crate::random::Random;

/// Puts the second of two boxes beside the first; in space a point or a line on a face of the box; the second end of a stroke a whole number
/// away from the first; or the ends of a stroke on the edges of a box. Other arguments stay as they are.
pub fn touch(shape: &[Kind], floats: &mut [f32], random: &mut Random) {
    match shape {
        [Kind::TurnedBox, Kind::TurnedBox] => beside(floats, random),
        [Kind::TurnedBox, Kind::Box] => upright_beside(floats, random),
        [Kind::Ends] => whole_apart(floats, random),
        [Kind::Pen, Kind::Box] => on_box(floats, random),
        [Kind::TurnedBox3, Kind::TurnedBox3] => space::turned_boxes(floats, random),
        [Kind::TurnedBox3, Kind::Point3, ..] => space::point_of_turned_box(floats, random),
        [Kind::Box3, Kind::Box3, ..] => space::boxes(floats, random),
        [Kind::Box3, Kind::Point3, Kind::Direction3] => space::line_through_box(floats, random),
        [Kind::Box3, Kind::Point3, ..] => space::point_of_box(floats, random),
        _ => {}
    }
}

/// Puts the second end a whole number away from the first in each coordinate, or one ulp off. For some of these the exact difference, rounded
/// up, is one more than the float difference, rounded up.
fn whole_apart(floats: &mut [f32], random: &mut Random) {
    for i in 0..2 {
        floats[2 + i] = near(floats[i] + random.around_zero(100) as f32, random);
    }
}

/// Puts each coordinate on an edge of the box or halfway between two, or leaves it, and at times moves it by an ulp: strokes along an edge, from
/// edge to edge, through a corner, inside, of no length.
fn on_box(floats: &mut [f32], random: &mut Random) {
    let (ends, corners) = floats.split_at_mut(4);
    for (i, x) in ends.iter_mut().enumerate() {
        let (low, high) = (corners[i % 2], corners[i % 2 + 2]);
        *x = near(random.pick(&[low, high, (low + high) / 2.0, *x]), random);
    }
}

fn near(x: f32, random: &mut Random) -> f32 {
    if random.one_in(2) { neighbour(x, random) } else { x }
}

/// Makes the second box parallel to the first, with its centre a half edge of each away. If the ratio is above 0 they share an edge.
fn beside(floats: &mut [f32], random: &mut Random) {
    let ratio = random.pick(&[0.5, 1.0, -2.0]);
    for i in 0..2 {
        floats[8 + i] = floats[2 + i] * ratio;
        floats[10 + i] = floats[4 + i] * ratio;
        floats[6 + i] = near(floats[i] + floats[2 + i] + floats[8 + i], random);
    }
}

/// Puts the turned box upright, and the upright box where it ends in x.
fn upright_beside(floats: &mut [f32], random: &mut Random) {
    [floats[3], floats[4]] = [0.0, 0.0];
    let width = (floats[8] - floats[6]).abs();
    floats[6] = near(floats[0] + floats[2].abs(), random);
    floats[8] = floats[6] + width;
}

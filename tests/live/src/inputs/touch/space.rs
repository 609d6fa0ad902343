//! Boxes of space that touch, points on their faces, and lines through them.

use super::near;
use crate::inputs::edges;
use crate::random::Random;
use del_geo_core::vec3;
use std::array;

/// Makes the second of two turned boxes from the first, with all of its directions or with one, beside it or within it; both tiny or huge
/// at times.
pub fn turned_boxes(floats: &mut [f32], random: &mut Random) {
    let (first, second) = floats.as_chunks_mut::<3>().0.split_at_mut(4);
    if random.one_in(8) {
        return put_at_infinity(first, second, random);
    }
    let ratios = array::from_fn(|_| random.pick(&[0.5, 1.0, -1.0, 2.0]));
    second[0] = centre_beside(first, ratios, random);
    if random.one_in(4) {
        let k = random.below(3) as usize;
        second[1] = vec3::scale(&first[1 + k], ratios[k]);
        edges::put_at_right_angles(&mut second[1..], random);
    } else {
        (0..3).for_each(|k| second[1 + k] = vec3::scale(&first[1 + k], ratios[k]));
    }
    second[1..].rotate_left(random.below(3) as usize);
    let exponent = random.pick(&[0, 0, 0, 0, -80, -50, 50, 70]);
    floats.iter_mut().for_each(|x| *x *= 2f32.powi(exponent));
}

/// Puts the first box at infinity in x and the second in y, so that the answer depends on the order of the axes. On the edges, all rising in x
/// and in y, both projections are infinite and overlap. A cross product that rises in one and falls in the other separates the boxes, and on
/// one without x or without y a projection is a NaN.
fn put_at_infinity(first: &mut [[f32; 3]], second: &mut [[f32; 3]], random: &mut Random) {
    first[0] = [f32::INFINITY, 0.0, 0.0];
    second[0] = [0.0, f32::INFINITY, 0.0];
    for edge in first[1..].iter_mut().chain(&mut second[1..]) {
        // Most times an edge with less in x has more in y: then the cross product of two edges rises in both or falls in both. Equal powers
        // of two cancel in it.
        let [x, more] = [16, 6].map(|n| random.below(n) as i32);
        *edge = [2f32.powi(x), 2f32.powi(16 - x + more), 1.0];
    }
}

/// The centre of a box whose edges are the first's times these ratios. Boxes touch where both half edges lie between the centres: with a
/// face if so in one direction, with an edge in two, with a corner in three. If in none, they overlap, or one is in the other.
fn centre_beside(first: &[[f32; 3]], ratios: [f32; 3], random: &mut Random) -> [f32; 3] {
    let mut centre = first[0];
    for (edge, ratio) in first[1..].iter().zip(ratios) {
        let step = random.pick(&[-1.0, 0.0, 0.0, 0.25, 1.0]) * (1.0 + ratio.abs());
        centre = vec3::axpy(step, edge, &centre);
    }
    nudged(centre, random)
}

/// Moves the point to a face, an edge or a corner of the turned box, stretched or not, or into it.
pub fn point_of_turned_box(floats: &mut [f32], random: &mut Random) {
    let eps = random.pick(&[0.0, 0.0, 2f32.powi(-10), floats[15]]);
    let vectors = floats.as_chunks_mut::<3>().0;
    let mut point = vectors[0];
    for edge in &vectors[1..4] {
        let step = random.pick(&[-1.0, 0.0, 0.5, 1.0, 1.0 + eps]);
        point = vec3::axpy(step, edge, &point);
    }
    vectors[4] = nudged(point, random);
    floats[15] = eps;
}

/// The point, or one that is an ulp off in one dimension.
fn nudged(mut point: [f32; 3], random: &mut Random) -> [f32; 3] {
    let i = random.below(3) as usize;
    point[i] = near(point[i], random);
    point
}

/// Puts the second of two boxes beside the first, or between the same faces, in some of the dimensions. Beside it is as far away as the
/// threshold after them says, if there is one.
pub fn boxes(floats: &mut [f32], random: &mut Random) {
    let gap = floats.get(12).map_or(0.0, |threshold| threshold.abs());
    for i in 0..3 {
        let [low, high] = [floats[i], floats[3 + i]];
        let width = (floats[9 + i] - floats[6 + i]).abs();
        match random.below(4) {
            0 => {
                floats[6 + i] = near(high + gap, random);
                floats[9 + i] = floats[6 + i] + width;
            }
            1 | 2 => [floats[6 + i], floats[9 + i]] = [low, high],
            _ => {}
        }
    }
}

/// Moves the point to a face, an edge or a corner of the box, or into it.
pub fn point_of_box(floats: &mut [f32], random: &mut Random) {
    for i in 0..3 {
        let [low, high] = [floats[i], floats[3 + i]];
        floats[6 + i] = match random.below(4) {
            0 => near(low, random),
            1 => near(high, random),
            2 => (low + high) * 0.5,
            _ => floats[6 + i],
        };
    }
}

/// Moves the line to such a point, which it passes where its parameter is 0 or another whole number.
pub fn line_through_box(floats: &mut [f32], random: &mut Random) {
    point_of_box(floats, random);
    let steps = random.pick(&[0.0, 1.0, 2.0, -3.0]);
    for i in 0..3 {
        floats[6 + i] -= steps * floats[9 + i];
    }
}

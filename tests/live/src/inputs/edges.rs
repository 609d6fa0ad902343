//! The half edges of turned boxes of space.

use crate::random::Random;
use del_geo_core::vec3;
use std::array;

type Edge = [f32; 3];

/// Puts the three half edges at right angles most times. At times one is 0, parallel to another, or so short or long that its square underflows
/// or overflows.
pub fn arrange(floats: &mut [f32], random: &mut Random) {
    let edges = floats.as_chunks_mut().0;
    match random.below(8) {
        // Any three edges.
        0 => {}
        1..=3 => put_upright(edges, random),
        _ => put_at_right_angles(edges, random),
    }
    let k = random.below(3) as usize;
    edges[k] = match random.below(16) {
        0 => [0.0; 3],
        1 => vec3::scale(&edges[(k + 1) % 3], ratio(random)),
        2 => vec3::scale(&edges[k], 2f32.powi(-80)),
        3 => vec3::scale(&edges[k], 2f32.powi(70)),
        _ => edges[k],
    };
}

/// Each along an axis of its own.
fn put_upright(edges: &mut [Edge], random: &mut Random) {
    let turn = random.below(3) as usize;
    for (k, edge) in edges.iter_mut().enumerate() {
        *edge = array::from_fn(|i| if i == (k + turn) % 3 { edge[i] } else { 0.0 });
    }
}

/// Changes the second and the third of three edges, so that all stand at right angles: exactly, if they are short whole numbers.
pub fn put_at_right_angles(edges: &mut [Edge], random: &mut Random) {
    // A cross product is about as long as its second factor if it is divided by the length of the first. A power of two rounds nothing.
    let length = power_of_two(edges[0]);
    for k in [1, 2] {
        let cross = vec3::cross(&edges[0], &edges[1]);
        edges[k] = vec3::scale(&cross, ratio(random) / length);
    }
}

fn ratio(random: &mut Random) -> f32 {
    random.pick(&[0.25, 0.5, 1.0, -2.0])
}

/// The power of two that the longest coordinate has, or 1 if that is less.
fn power_of_two(edge: Edge) -> f32 {
    let longest = edge.into_iter().fold(1.0, |longest: f32, x| longest.max(x.abs()));
    f32::from_bits(longest.to_bits() & 0x7f80_0000)
}

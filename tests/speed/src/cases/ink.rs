//! The ink of pen strokes in one box.

use super::calls;
use super::clip::FACE;
use crate::measure::Case;
use crate::random::{Random, between};
use bagnoszyk::edge2;
use bagnoszyk::shapes::Vec2;

const STROKES: usize = 1000;

pub fn cases() -> Vec<Case> {
    vec![
        ink("ink: strokes anywhere, most cut the box", [-20, 140], [-20, 100]),
        ink("ink: strokes inside the box", [0, 120], [0, 80]),
        ink("ink: strokes beyond an edge of the box", [-20, 140], [-20, -1]),
    ]
}

/// Each stroke is followed by its falling twin, mirrored in x within the box.
fn ink(name: &str, x: [i64; 2], y: [i64; 2]) -> Case {
    let mut random = Random::new(1, "ink");
    let mut end =
        || Vec2 { x: between(&mut random, x[0], x[1]), y: between(&mut random, y[0], y[1]) };
    let twin = |p: Vec2| Vec2 { x: FACE.max_x - p.x, ..p };
    let mut strokes = Vec::new();
    for _ in 0..STROKES / 2 {
        let (p0, p1) = (end(), end());
        strokes.extend([(p0, p1), (twin(p0), twin(p1))]);
    }
    calls(
        name,
        strokes,
        |&(p0, p1)| edge2::ink(p0, p1, FACE).unwrap(),
        |&(p0, p1)| rust_abi::ink(p0, p1, FACE).value,
    )
}

//! Hatch lines against one box: a face hatched crosswise, in drawing order; and lines of all kinds, in random order. The Rust tells no edge, so the
//! answers compared are the intervals' ends.

use super::calls;
use crate::measure::Case;
use crate::random::{Random, point};
use bagnoszyk::shapes::{Aabb2, Vec2};
use bagnoszyk::{Interval, aabb};

pub const FACE: Aabb2 = Aabb2 { min_x: 0.0, min_y: 0.0, max_x: 120.0, max_y: 80.0 };

/// Origin and direction.
pub type Line = (Vec2, Vec2);

pub fn cases() -> Vec<Case> {
    vec![
        clip("clip: 3,000 hatch lines, rising and falling", hatch(3000)).goal(0.9),
        clip("clip: 3,000 lines of all kinds", of_all_kinds(3000)).goal(0.9),
    ]
}

pub fn hatch(lines: usize) -> Vec<Line> {
    (0..lines).map(|k| slanting(k, lines)).collect()
}

pub fn of_all_kinds(lines: usize) -> Vec<Line> {
    let mut random = Random::new(1, "clip");
    (0..lines).map(|_| any(&mut random)).collect()
}

fn clip(name: &str, lines: Vec<Line>) -> Case {
    calls(
        name,
        lines,
        |&(origin, direction)| aabb::intersections_against_line(FACE, origin, direction).map(ends),
        |&(origin, direction)| {
            rust_abi::intersections_against_line(FACE, origin, direction).option().map(ends)
        },
    )
}

pub fn ends(t: Interval) -> [f32; 2] {
    [t.tmin, t.tmax]
}

/// Line k of so many at 45 degrees, each rising one followed by its falling twin. They are spaced evenly over the face, and the first and the
/// last pair miss it.
fn slanting(k: usize, lines: usize) -> Line {
    let (width, height) = (FACE.max_x, FACE.max_y);
    let pair = (k / 2) as f32 - 1.0;
    let x = pair * (width + height) / (lines / 2 - 3) as f32 - height;
    let rising = (Vec2 { x, y: 0.0 }, Vec2 { x: 1.0, y: 1.0 });
    let falling = (Vec2 { x: width - x, y: 0.0 }, Vec2 { x: -1.0, y: 1.0 });
    if k.is_multiple_of(2) { rising } else { falling }
}

/// A quarter is parallel to an edge of the face, and many miss it.
fn any(random: &mut Random) -> Line {
    let origin = point(random, -20, 140);
    let mut direction = point(random, -4, 4);
    match random.below(8) {
        0 => direction.x = 0.0,
        1 => direction.y = 0.0,
        _ => {}
    }
    (origin, direction)
}

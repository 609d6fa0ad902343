//! The nearest point of a shape.

use super::calls;
use super::turned::turned;
use crate::measure::Case;
use crate::random::{Random, point};
use bagnoszyk::shapes::{Aabb2, OnEdge, Vec2};
use bagnoszyk::{aabb2, edge2, obb2};

const CALLS: usize = 1000;
const FACE: Aabb2 = Aabb2 { min_x: -5.0, min_y: -3.0, max_x: 6.0, max_y: 2.0 };

pub fn cases() -> Vec<Case> {
    let mut random = Random::new(1, "nearest");
    let boxes = (0..CALLS).map(|_| (turned(&mut random, 1), point(&mut random, -3, 3))).collect();
    let points = (0..CALLS).map(|_| point(&mut random, -12, 12)).collect();
    let mut corner = || point(&mut random, -12, 12);
    let edges = (0..CALLS).map(|_| (corner(), corner(), corner())).collect();
    vec![
        calls(
            "nearest point: of a turned box",
            boxes,
            |&(o, p)| pair(obb2::nearest_point2(o, p).unwrap()),
            |&(o, p)| pair(rust_abi::obb2_nearest_point2(o, p).value),
        ),
        calls(
            "nearest point: of an upright box",
            points,
            |&p| pair(aabb2::nearest_point2(FACE, p).unwrap()),
            |&p| pair(rust_abi::aabb2_nearest_point2(FACE, p).value),
        ),
        calls(
            "nearest point: of an edge",
            edges,
            |&(s, e, p)| on_edge(edge2::nearest_to_point(s, e, p)),
            |&(s, e, p)| on_edge(rust_abi::nearest_to_point(s, e, p)),
        ),
    ]
}

fn pair(p: Vec2) -> [f32; 2] {
    p.into()
}

fn on_edge(found: OnEdge) -> (f32, [f32; 2]) {
    (found.ratio, pair(found.point))
}

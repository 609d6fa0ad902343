//! A whole face in one call: the answers of the routine for a line in turn, and no other entry changed. The edges of lines and rays.

use bagnoszyk::limits::{LINE_FLOATS, LINE_RESULT_FLOATS};
use bagnoszyk::{Aabb2, Aabb3, Edge, Refusal, Vec2, Vec3, aabb, aabb_3};

const FACE: Aabb2 = Aabb2 { min_x: 0.0, min_y: 0.0, max_x: 12.0, max_y: 8.0 };

/// What every entry holds before a call.
const MARKED: f32 = -77.0;

type Line = [f32; LINE_FLOATS];

/// Rising lines at 45 degrees over the face, each followed by its falling twin; an upright one and a level one; along an edge, through a
/// corner, a miss; and one of a NaN, an infinity and a subnormal.
fn lines() -> Vec<Line> {
    let hatch =
        (-9..13).flat_map(|x| [[x as f32, 0.0, 1.0, 1.0], [12.0 - x as f32, 0.0, -1.0, 1.0]]);
    let others = [
        [3.0, -5.0, 0.0, 2.0],
        [3.0, 4.0, -2.0, -0.0],
        [12.0, 4.0, 0.0, 1.0],
        [13.0, 7.0, -1.0, 1.0],
        [13.0, 4.0, 0.0, 1.0],
        [f32::NAN, 4.0, f32::INFINITY, 1e-45],
    ];
    hatch.chain(others).collect()
}

/// What the routine for a line answers, as the list of results has it.
fn single(&[x, y, dx, dy]: &Line) -> [f32; LINE_RESULT_FLOATS] {
    match aabb::intersections_against_line(FACE, Vec2 { x, y }, Vec2 { x: dx, y: dy }) {
        Some(t) => [1.0, t.tmin, t.tmax, t.edge.map_or(0, Edge::number) as f32],
        None => [0.0; LINE_RESULT_FLOATS],
    }
}

/// A call with a list of so many entries: its answer, and the list afterwards.
fn call(floats: &[f32], room: usize) -> (Result<usize, Refusal>, Vec<f32>) {
    let mut out = vec![MARKED; room];
    let answer = aabb::intersections_against_lines(FACE, floats, &mut out);
    (answer, out)
}

#[test]
fn the_answers_in_turn_and_the_rest_unchanged() {
    let lines = lines();
    for n in 0..=lines.len() {
        let floats = lines[..n].as_flattened();
        let mut expected: Vec<f32> = lines[..n].iter().flat_map(single).collect();
        let entries = expected.len();
        assert_eq!(entries, LINE_RESULT_FLOATS * n);
        assert_eq!(call(floats, entries), (Ok(entries), expected.clone()));
        expected.resize(entries + 5, MARKED);
        assert_eq!(call(floats, entries + 5), (Ok(entries), expected));
        if entries > 0 {
            assert_eq!(call(floats, entries - 1), (Err(Refusal::ROOM), vec![MARKED; entries - 1]));
        }
    }
}

#[test]
fn a_part_of_a_line_is_refused_first() {
    let lines = lines();
    let floats = lines.as_flattened();
    for length in [1, 2, 3, 5, 6, 7, 9, floats.len() - 1] {
        for room in [0, 2, 3, 4, 1000] {
            assert_eq!(call(&floats[..length], room), (Err(Refusal::LINES), vec![MARKED; room]));
        }
    }
}

#[test]
fn no_limit_on_lines() {
    let lines = lines().repeat(1000);
    let expected: Vec<f32> = lines.iter().flat_map(single).collect();
    assert_eq!(call(lines.as_flattened(), expected.len()), (Ok(expected.len()), expected));
}

/// Lines of the face, and the edge by which each comes in: level and upright ones, through corners, at every t, along an edge, and a miss.
const ENTRIES: [(Line, Option<Option<Edge>>); 11] = [
    ([-1.0, 4.0, 1.0, 0.0], Some(Some(Edge::Left))),
    ([13.0, 4.0, -1.0, -0.0], Some(Some(Edge::Right))),
    ([3.0, -1.0, 0.0, 1.0], Some(Some(Edge::Lower))),
    ([3.0, 9.0, -0.0, -1.0], Some(Some(Edge::Upper))),
    ([-1.0, -1.0, 1.0, 1.0], Some(Some(Edge::Left))),
    ([13.0, -1.0, -1.0, 1.0], Some(Some(Edge::Right))),
    ([10.0, -2.0, 1.0, 1.0], Some(Some(Edge::Lower))),
    ([3.0, 4.0, 0.0, 0.0], Some(None)),
    ([f32::NAN, f32::NAN, 1.0, 1.0], Some(None)),
    ([-1.0, 8.0, 1.0, 0.0], Some(Some(Edge::Left))),
    ([13.0, 4.0, 0.0, 1.0], None),
];

#[test]
fn the_edge_of_each_line() {
    let lines = ENTRIES.map(|(line, _)| line);
    let (_, results) = call(lines.as_flattened(), LINE_RESULT_FLOATS * lines.len());
    let (results, _) = results.as_chunks::<LINE_RESULT_FLOATS>();
    for ((line, expected), result) in ENTRIES.iter().zip(results) {
        let &[x, y, dx, dy] = line;
        let hit = aabb::intersections_against_line(FACE, Vec2 { x, y }, Vec2 { x: dx, y: dy });
        assert_eq!(hit.map(|t| t.edge), *expected, "{line:?}");
        assert_eq!(Edge::from_number(result[3] as u32), expected.flatten(), "{line:?}");
    }
}

#[test]
fn the_edge_of_a_ray_is_its_lines() {
    let ray = |[x, y, dx, dy]: Line| {
        aabb::intersections_against_ray(FACE, Vec2 { x, y }, Vec2 { x: dx, y: dy }).map(|t| t.edge)
    };
    assert_eq!(ray([3.0, 4.0, -1.0, 0.0]), Some(Some(Edge::Right)));
    assert_eq!(ray([3.0, 4.0, 0.0, 0.0]), Some(None));
    assert_eq!(ray([13.0, 4.0, 1.0, 0.0]), None);
}

#[test]
fn the_faces_of_space() {
    let b = Aabb3::from([0.0, 0.0, 0.0, 12.0, 8.0, 5.0]);
    let directions = [
        ([1.0, 0.0, 0.0], Edge::Left),
        ([-1.0, 0.0, 0.0], Edge::Right),
        ([0.0, 1.0, 0.0], Edge::Lower),
        ([0.0, -1.0, 0.0], Edge::Upper),
        ([0.0, 0.0, 1.0], Edge::Near),
        ([0.0, 0.0, -1.0], Edge::Far),
    ];
    for (direction, edge) in directions {
        let (origin, direction) = (Vec3::from([6.0, 4.0, 1.0]), Vec3::from(direction));
        let line = aabb_3::intersections_against_line(b, origin, direction).unwrap();
        let ray = aabb_3::intersections_against_ray(b, origin, direction).unwrap();
        assert_eq!([line.edge, ray.edge], [Some(edge); 2]);
    }
}

#[test]
fn edges_by_their_numbers() {
    let edges = [Edge::Left, Edge::Right, Edge::Lower, Edge::Upper, Edge::Near, Edge::Far];
    assert_eq!(edges.map(Edge::number), [1, 2, 3, 4, 5, 6]);
    assert_eq!(edges.map(|edge| Edge::from_number(edge.number())), edges.map(Some));
    assert_eq!([0, 7, u32::MAX].map(Edge::from_number), [None; 3]);
}

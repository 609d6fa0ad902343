//! A whole face in one call. The Rust has no such routine: its routine for a line is called for each, or inlined in a loop. It tells no edge, so the
//! fourth float of a line is 0 there.

use super::clip::{FACE, Line, hatch, of_all_kinds};
use super::{Sized, calls};
use crate::measure::Case;
use bagnoszyk::limits::{LINE_FLOATS, LINE_RESULT_FLOATS};
use bagnoszyk::shapes::Vec2;
use bagnoszyk::{Interval, aabb};
use std::cell::RefCell;

/// The lines as floats, and the list for the results.
type Face = (Vec<[f32; LINE_FLOATS]>, RefCell<Vec<f32>>);

pub fn cases() -> Vec<Case> {
    let faces = [
        ("2,000 hatch lines, rising and falling", hatch(2000)),
        ("2,000 lines of all kinds", of_all_kinds(2000)),
        ("50,000 lines of all kinds", of_all_kinds(50_000)),
    ];
    let both = |(name, lines): &(&str, Vec<Line>)| {
        [
            face(&format!("face: {name}; the Rust called line by line"), lines, called).goal(0.4),
            face(&format!("face: {name}; the Rust inlined in a loop"), lines, inlined).goal(0.55),
        ]
    };
    faces.iter().flat_map(both).collect()
}

pub fn sized() -> Vec<Sized> {
    let sizes = [1, 2, 3, 4, 7, 20, 200, 2000, 20_000, 100_000];
    sizes.map(|n| Sized::new("face: a line", face("face", &of_all_kinds(n), inlined))).into()
}

fn face(name: &str, lines: &[Line], rust: fn(&Face) -> usize) -> Case {
    let floats =
        lines.iter().map(|(origin, direction)| [origin.x, origin.y, direction.x, direction.y]);
    let face = (floats.collect(), RefCell::new(vec![0.0; LINE_RESULT_FLOATS * lines.len()]));
    let results = |call: fn(&Face) -> usize| {
        // A NaN equals nothing, so an entry that is not written makes the lists differ. The edges are left out.
        face.1.borrow_mut().fill(f32::NAN);
        call(&face);
        let results = face.1.borrow();
        let (places, _) = results.as_chunks::<LINE_RESULT_FLOATS>();
        places.iter().map(|&[hit, tmin, tmax, _]| [hit, tmin, tmax]).collect::<Vec<_>>()
    };
    assert_eq!(results(library), results(rust), "{name}");
    let case = calls(name, vec![face], library, rust);
    Case { units: lines.len(), ..case }
}

fn library((lines, results): &Face) -> usize {
    aabb::intersections_against_lines(FACE, lines.as_flattened(), &mut results.borrow_mut())
        .unwrap()
}

fn called((lines, results): &Face) -> usize {
    let results = &mut results.borrow_mut()[..];
    let (places, _) = results.as_chunks_mut();
    for (&[x, y, dx, dy], place) in lines.iter().zip(places) {
        let (origin, direction) = (Vec2 { x, y }, Vec2 { x: dx, y: dy });
        *place = match rust_abi::intersections_against_line(FACE, origin, direction).option() {
            Some(Interval { tmin, tmax, .. }) => [1.0, tmin, tmax, 0.0],
            None => [0.0; LINE_RESULT_FLOATS],
        };
    }
    results.len()
}

fn inlined((lines, results): &Face) -> usize {
    let lines = lines.as_flattened();
    let results = &mut results.borrow_mut()[..];
    let (start, room) = (results.as_mut_ptr(), results.len());
    unsafe { rust_abi::intersections_against_lines(FACE, lines.as_ptr(), lines.len(), start, room) }
        .count
}

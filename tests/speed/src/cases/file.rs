//! Reading a hatch list and clipping its records, and writing a hatch list and reading it back.

use super::{Sized, calls};
use crate::measure::Case;
use crate::random::{Random, between, point};
use bagnoszyk::limits::{HATCH_RECORD_FLOATS as RECORD, HATCH_RECORDS_MAX as RECORDS};
use bagnoszyk::{Aabb2, Interval, Vec2, aabb, hatch};
use std::cell::RefCell;

/// A file, and the list for its floats.
type File = (Vec<u8>, RefCell<Vec<f32>>);

/// The bits of the floats of records, the list for their file, and the list to read it back into.
type Save = (Vec<u32>, RefCell<Vec<u8>>, RefCell<Vec<u32>>);

pub fn cases() -> Vec<Case> {
    vec![
        file(RECORDS),
        save(RECORDS, "the Rust in a Vec", saved_in_a_vec).goal(1.0),
        save(RECORDS, "the Rust in the same list", saved_in_the_list).goal(1.0),
    ]
}

pub fn sized() -> Vec<Sized> {
    let sizes = [1, 20, 200, 2000];
    let read = sizes.map(|records| Sized::new("file: a record", file(records)));
    let saved = sizes.map(|records| {
        Sized::new("save: a record", save(records, "the Rust in the same list", saved_in_the_list))
    });
    read.into_iter().chain(saved).collect()
}

fn file(records: usize) -> Case {
    let name = format!("file: {records} records, read and clipped");
    let file = rust_abi::written(&patterns(records)).unwrap();
    let case = calls(&name, vec![(file, RefCell::new(vec![0.0; RECORD * records]))], library, rust);
    Case { units: records, ..case }
}

/// The bits of the floats of records: slanting lines about a face, rising and falling.
pub fn patterns(records: usize) -> Vec<u32> {
    let mut random = Random::new(1, "file");
    let mut patterns = Vec::new();
    for _ in 0..records {
        let low = point(&mut random, 0, 50);
        let origin = point(&mut random, -20, 140);
        let (dx, dy) = (between(&mut random, -2, 2), between(&mut random, -2, 2));
        let record = [low.x, low.y, low.x + 60.0, low.y + 40.0, origin.x, origin.y, dx, dy];
        patterns.extend(record.map(f32::to_bits));
    }
    patterns
}

fn library((bytes, floats): &File) -> f32 {
    let floats = &mut floats.borrow_mut();
    let records = hatch::read_floats(bytes, floats).unwrap();
    clipped(&floats[..RECORD * records.count], |b, origin, direction| {
        aabb::intersections_against_line(b, origin, direction)
    })
}

fn rust((bytes, floats): &File) -> f32 {
    let floats = &mut floats.borrow_mut();
    let (start, room) = (floats.as_mut_ptr(), floats.len());
    let read = unsafe { rust_abi::read_floats(bytes.as_ptr(), bytes.len(), start, room) };
    clipped(&floats[..RECORD * read.count], |b, origin, direction| {
        rust_abi::intersections_against_line(b, origin, direction).option()
    })
}

/// The sum of the lengths of the intervals inside, each in its line's parameter.
fn clipped(floats: &[f32], clip: impl Fn(Aabb2, Vec2, Vec2) -> Option<Interval>) -> f32 {
    let (records, _) = floats.as_chunks();
    let inside = |&[min_x, min_y, max_x, max_y, x, y, dx, dy]: &[f32; RECORD]| {
        let b = Aabb2 { min_x, min_y, max_x, max_y };
        clip(b, Vec2 { x, y }, Vec2 { x: dx, y: dy }).map_or(0.0, |t| t.tmax - t.tmin)
    };
    records.iter().map(inside).sum()
}

/// What is written and read back: how many bytes, how many records, and the last pattern.
type Saved = (usize, usize, u32);

fn save(records: usize, other: &str, rust: fn(&Save) -> Saved) -> Case {
    let name = format!("save: {records} records, written and read back; {other}");
    let patterns = patterns(records);
    let file = vec![0; rust_abi::written(&patterns).unwrap().len()];
    let read = vec![0; patterns.len()];
    let lists = (patterns, RefCell::new(file), RefCell::new(read));
    Case { units: records, ..calls(&name, vec![lists], saved, rust) }
}

fn saved((patterns, bytes, read): &Save) -> Saved {
    let (bytes, read) = (&mut bytes.borrow_mut()[..], &mut read.borrow_mut()[..]);
    let size = hatch::write_patterns(patterns, bytes).unwrap();
    let records = hatch::read_patterns(&bytes[..size], read).unwrap();
    (size, records.count, read[patterns.len() - 1])
}

fn saved_in_a_vec((patterns, _, read): &Save) -> Saved {
    let bytes = rust_abi::written(patterns).unwrap();
    read_by_rust(&bytes, &mut read.borrow_mut())
}

fn saved_in_the_list((patterns, bytes, read): &Save) -> Saved {
    let bytes = &mut bytes.borrow_mut()[..];
    let (room, out) = (bytes.len(), bytes.as_mut_ptr());
    let size = unsafe { rust_abi::write_patterns(patterns.as_ptr(), patterns.len(), out, room) };
    read_by_rust(&bytes[..size.count], &mut read.borrow_mut())
}

fn read_by_rust(bytes: &[u8], read: &mut [u32]) -> Saved {
    let (list, room) = (read.as_mut_ptr(), read.len());
    let records = unsafe { rust_abi::read_patterns(bytes.as_ptr(), bytes.len(), list, room) };
    (bytes.len(), records.count, read[RECORD * records.count - 1])
}

//! The limits: a call at each is answered, and a call one past it is refused. What is written at most is what the longest hatch list makes.

use bagnoszyk::limits::*;
use bagnoszyk::{Aabb2, Refusal, RefusalAt, Vec2, aabb2, edge2, hatch};

const UNIT: Aabb2 = Aabb2 { min_x: 0.0, min_y: 0.0, max_x: 1.0, max_y: 1.0 };

fn stroke(width: usize, height: usize, far: f32) -> Result<usize, RefusalAt> {
    let (p0, p1) = (Vec2 { x: 0.5, y: 0.5 }, Vec2 { x: far, y: 0.5 });
    edge2::overlapping_pixels_dda(width, height, p0, p1, &mut vec![0; STROKE_ENTRIES_MAX])
}

fn tiles(far: f32, size: usize, width: usize, height: usize) -> Result<usize, Refusal> {
    let b = Aabb2 { max_x: far, ..UNIT };
    aabb2::overlapping_tiles(b, size, width, height, &mut [0; IMAGE_SIDE_MAX])
}

/// A hatch list of so many records of eight floats 1 each. Their lines hit.
fn list(count: usize) -> Vec<u8> {
    let mut bytes = b"HSL\x01\0".to_vec();
    bytes.extend((count as u16).to_le_bytes());
    bytes.extend([1_f32.to_le_bytes(); 8].concat().repeat(count));
    bytes
}

#[test]
fn sides_of_an_image() {
    let above = IMAGE_SIDE_MAX + 1;
    assert!(aabb2::rasterize(UNIT, IMAGE_SIDE_MAX, IMAGE_SIDE_MAX).is_ok());
    assert_eq!(aabb2::rasterize(UNIT, above, 1), Err(Refusal::SIZE));
    assert_eq!(aabb2::rasterize(UNIT, 1, above), Err(Refusal::SIZE));
    assert!(stroke(IMAGE_SIDE_MAX, IMAGE_SIDE_MAX, 2.0).is_ok());
    assert_eq!(stroke(above, 1, 2.0), Err(Refusal::SIZE.into()));
    assert_eq!(stroke(1, above, 2.0), Err(Refusal::SIZE.into()));
    assert!(tiles(1.0, 1, IMAGE_SIDE_MAX, IMAGE_SIDE_MAX).is_ok());
    assert_eq!(tiles(1.0, 1, above, 1), Err(Refusal::SIZE));
    assert_eq!(tiles(1.0, 1, 1, above), Err(Refusal::SIZE));
}

#[test]
fn coordinates() {
    assert_eq!(stroke(IMAGE_SIDE_MAX, 1, STROKE_COORDINATE_MAX), Ok(STROKE_ENTRIES_MAX));
    let ends = [-STROKE_COORDINATE_MAX, STROKE_COORDINATE_MAX].map(|x| Vec2 { x, y: 0.0 });
    assert_eq!(edge2::pixels_bound(IMAGE_SIDE_MAX, 1, ends[0], ends[1]), Ok(STROKE_ENTRIES_MAX));
    assert_eq!(edge2::ink(ends[0], ends[1], [0.0, 0.0, 1.0, 1.0].into()), Ok(1.0));
    assert_eq!(stroke(8, 8, STROKE_COORDINATE_MAX.next_up()), Err(Refusal::COORDINATE.at(2)));
    assert!(tiles(TILE_COORDINATE_MAX, TILE_SIZE_MAX, 8, 8).is_ok());
    assert_eq!(tiles(TILE_COORDINATE_MAX.next_up(), 1, 8, 8), Err(Refusal::COORDINATE));
    assert_eq!(tiles(f32::INFINITY, 1, 8, 8), Err(Refusal::COORDINATE));
}

/// Both walks, the bound and the ink with each of a stroke's four coordinates refused in turn; then refusals that tell no place.
#[test]
fn places() {
    let points = |[x0, y0, x1, y1]: [f32; 4]| (Vec2::from([x0, y0]), Vec2::from([x1, y1]));
    let calls = |ends: [f32; 4], list: &mut [u32]| {
        let (p0, p1) = points(ends);
        [edge2::overlapping_pixels_dda, edge2::pixels_inside].map(|walk| walk(8, 8, p0, p1, list))
    };
    let bound = |ends: [f32; 4]| {
        let (p0, p1) = points(ends);
        edge2::pixels_bound(8, 8, p0, p1)
    };
    let ink = |ends: [f32; 4], corners: [f32; 4]| {
        let (p0, p1) = points(ends);
        edge2::ink(p0, p1, corners.into())
    };
    let (ordered, reversed) = ([0.0, 0.0, 2.5, 2.5], [0.0, 2.5, 2.5, 0.0]);
    for place in 0..4 {
        for (x, refusal) in [
            (f32::NAN, Refusal::NOT_FINITE),
            (f32::NEG_INFINITY, Refusal::NOT_FINITE),
            (STROKE_COORDINATE_MAX.next_up(), Refusal::COORDINATE),
            (-STROKE_COORDINATE_MAX.next_up(), Refusal::COORDINATE),
        ] {
            let mut ends = [0.5, 0.5, 3.5, 3.5];
            ends[place] = x;
            assert_eq!(calls(ends, &mut [0; 9]), [Err(refusal.at(place)); 2]);
            assert_eq!(bound(ends), Err(refusal.at(place)));
            assert_eq!(ink(ends, reversed), Err(refusal.at(place)));
            ends[3] = f32::NAN;
            assert_eq!(calls(ends, &mut []).map(|told| told.unwrap_err().place), [Some(place); 2]);
            assert_eq!(bound(ends).unwrap_err().place, Some(place));
        }
    }
    assert_eq!(calls([0.5; 4], &mut []), [Err(Refusal::SAME_ENDS.into()); 2]);
    assert_eq!(bound([0.5; 4]), Err(Refusal::SAME_ENDS.into()));
    assert_eq!(calls([0.5, 0.5, 3.5, 3.5], &mut []), [Err(Refusal::ROOM.into()); 2]);
    assert_eq!(bound([0.5, 0.5, 3.5, 3.5]), Ok(8));
    assert_eq!(ink([0.5; 4], reversed), Err(Refusal::ORDER.into()));
    assert_eq!(ink([0.5; 4], ordered), Ok(0.0));
}

#[test]
fn sizes_of_a_tile() {
    assert!(tiles(1.0, TILE_SIZE_MAX, 8, 8).is_ok());
    assert_eq!(tiles(1.0, TILE_SIZE_MAX + 1, 8, 8), Err(Refusal::SIZE));
    assert_eq!(tiles(1.0, 0, 8, 8), Err(Refusal::SIZE));
}

#[test]
fn the_longest_hatch_list() {
    let (longest, longer) = (list(HATCH_RECORDS_MAX), list(HATCH_RECORDS_MAX + 1));
    assert_eq!(longest.len(), HATCH_BYTES_MAX);
    assert_eq!(HATCH_FLOATS_MAX, HATCH_RECORD_FLOATS * HATCH_RECORDS_MAX);
    assert_eq!(hatch::record_count(&[0.0; HATCH_RECORD_FLOATS]), 1);
    let mut floats = vec![0.0; HATCH_FLOATS_MAX];
    assert_eq!(hatch::read_floats(&longest, &mut floats).unwrap().count, HATCH_RECORDS_MAX);
    assert_eq!(
        hatch::read_floats(&longest, &mut floats[1..]),
        Err(Refusal::ROOM.at(HATCH_BYTES_MAX))
    );
    assert_eq!(hatch::read_floats(&longer, &mut floats), Err(Refusal::COUNT.at(5)));

    let mut file = vec![0; HATCH_BYTES_MAX];
    assert_eq!(hatch::write_floats(&floats, &mut file), Ok(HATCH_BYTES_MAX));
    assert_eq!(file, longest);
    assert_eq!(hatch::write_floats(&floats, &mut file[1..]), Err(Refusal::ROOM));
    floats.extend([1.0; HATCH_RECORD_FLOATS]);
    assert_eq!(hatch::write_floats(&floats, &mut file), Err(Refusal::COUNT));
    assert_eq!(file, longest);
    floats.truncate(HATCH_FLOATS_MAX);

    let mut out = vec![0; HATCH_REPORT_MAX + 1];
    let length = hatch::report(&longest, &mut out);
    assert!(length <= HATCH_REPORT_MAX);
    assert_eq!(out[length], 0);
}

//! Clips a hatch list line by line, with the section marks of two lines, and one of its faces in one call, makes the
//! bytes to save with a line corrected, and merges both lists. Then lists the pixels of pen strokes and the tiles of a
//! box, and shows two refusals.
//!
//! ```text
//! ./install PREFIX
//! cd examples/rust
//! BAGNOSZYK_STATICLIB=PREFIX/lib cargo run -- ../section.hsl
//! ```
//!
//! PREFIX is a whole path, from the root on.

use bagnoszyk::limits::{
    HATCH_BYTES_MAX, HATCH_FLOATS_MAX, HATCH_RECORD_FLOATS as RECORD, LINE_FLOATS,
    LINE_RESULT_FLOATS,
};
use bagnoszyk::{Aabb2, Edge, Interval, Refusal, RefusalAt, Vec2, aabb, aabb2, edge2, hatch};
use std::process::ExitCode;
use std::{env, fs};

/// The place of a direction's x in a record: the box's floats stand first, then the line's, its point and its direction.
const DIRECTION_X: usize = RECORD - LINE_FLOATS + 2;

/// A hatch line, and the box of the face that it fills.
struct Line {
    face: Aabb2,
    origin: Vec2,
    direction: Vec2,
}

impl Line {
    fn new(record: &[f32; RECORD]) -> Self {
        let [min_x, min_y, max_x, max_y, x, y, dx, dy] = *record;
        let face = Aabb2 { min_x, min_y, max_x, max_y };
        Line { face, origin: Vec2 { x, y }, direction: Vec2 { x: dx, y: dy } }
    }

    /// The bits of its box. A box equals itself by them, one with a NaN too.
    fn face_bits(&self) -> [u32; 4] {
        <[f32; 4]>::from(self.face).map(f32::to_bits)
    }

    fn clip(&self) -> Option<Interval> {
        aabb::intersections_against_line(self.face, self.origin, self.direction)
    }

    fn rises(&self) -> bool {
        let Vec2 { x, y } = self.direction;
        (x > 0.0 && y > 0.0) || (x < 0.0 && y < 0.0)
    }

    fn falls(&self) -> bool {
        let Vec2 { x, y } = self.direction;
        (x > 0.0 && y < 0.0) || (x < 0.0 && y > 0.0)
    }

    fn point_at(&self, t: f32) -> Vec2 {
        let (origin, direction) = (self.origin, self.direction);
        Vec2 { x: origin.x + t * direction.x, y: origin.y + t * direction.y }
    }
}

/// An edge of a box in words.
fn named(edge: Edge) -> String {
    format!("{edge:?}").to_lowercase()
}

/// Prints the ends of the first of these lines that does more than touch its box, and its section mark, which sits on the edge by which it
/// comes in.
fn print_first(kind: &str, lines: &[&Line]) {
    let found = lines.iter().find_map(|line| {
        let Interval { tmin, tmax, edge } = line.clip()?;
        (tmin < tmax).then(|| (line.point_at(tmin), line.point_at(tmax), edge))
    });
    let Some((from, to, edge)) = found else { return };
    println!("first {kind} line: ({:.3}, {:.3}) to ({:.3}, {:.3})", from.x, from.y, to.x, to.y);
    if let Some(edge) = edge {
        println!("its section mark: on the {} edge at ({:.3}, {:.3})", named(edge), from.x, from.y);
    }
}

fn print_section(lines: &[Line]) {
    let hits = lines.iter().filter(|line| line.clip().is_some()).count();
    let rising: Vec<_> = lines.iter().filter(|line| line.rises()).collect();
    let falling: Vec<_> = lines.iter().filter(|line| line.falls()).collect();
    let count = lines.len();
    println!("{count} lines: {hits} hit, {} rise, {} fall", rising.len(), falling.len());
    print_first("rising", &rising);
    print_first("falling", &falling);
}

/// Clips all lines of the first record's face in one call.
fn print_face(lines: &[Line]) -> Result<(), Refusal> {
    let Some(first) = lines.first() else { return Ok(()) };
    let of_face = lines.iter().filter(|line| line.face_bits() == first.face_bits());
    let floats: Vec<_> =
        of_face.map(|Line { origin: p, direction: d, .. }| [p.x, p.y, d.x, d.y]).collect();
    let mut results = vec![[0.0; LINE_RESULT_FLOATS]; floats.len()];
    aabb::intersections_against_lines(
        first.face,
        floats.as_flattened(),
        results.as_flattened_mut(),
    )?;
    let hits = results.iter().filter(|result| result[0] == 1.0).count();
    println!("first face: {} lines, {hits} hit", floats.len());
    Ok(())
}

/// Negates the direction's x of the first record, so that its line leans the other way, and makes the bytes to store. Records are saved by
/// their bits: what is not corrected stays as it was, byte for byte. The bytes are those of a list that has a record.
fn print_saved(bytes: &[u8]) -> Result<(), RefusalAt> {
    let mut patterns = vec![0; HATCH_FLOATS_MAX];
    let count = hatch::read_patterns(bytes, &mut patterns)?.count;
    patterns[DIRECTION_X] = (-f32::from_bits(patterns[DIRECTION_X])).to_bits();
    let mut saved = vec![0; HATCH_BYTES_MAX];
    let size = hatch::write_patterns(&patterns[..RECORD * count], &mut saved)?;
    let changed = saved[..size].iter().zip(bytes).filter(|(new, old)| new != old).count();
    println!("to save: {size} bytes, {changed} changed");

    // Another draftsman's list is still as it was read: the merged list has all its lines, and the corrected one.
    let mut merged = vec![0; HATCH_BYTES_MAX];
    match hatch::merge(bytes, &saved[..size], &mut merged) {
        Ok(size) => println!("merged: {size} bytes"),
        Err(refused) => println!("merged: {refused}"),
    }
    Ok(())
}

fn print_list(what: &str, list: &[u32]) {
    let entries: Vec<_> = list.iter().map(u32::to_string).collect();
    println!("{what}: {}", entries.join(" "));
}

fn run(bytes: &[u8]) -> Result<(), RefusalAt> {
    let mut floats = vec![0.0; HATCH_FLOATS_MAX];
    let count = hatch::read_floats(bytes, &mut floats)?.count;
    let records = floats.chunks_exact(RECORD).take(count).filter_map(<[f32]>::first_chunk);
    let lines: Vec<_> = records.map(Line::new).collect();
    print_section(&lines);
    print_face(&lines)?;
    if !lines.is_empty() {
        print_saved(bytes)?;
    }

    // A stroke and its falling twin, in an image of 8 by 8 pixels.
    let mut list = [0; 16];
    let strokes = [("rising", [0.5, 0.5], [3.5, 3.5]), ("falling", [0.5, 3.5], [3.5, 0.5])];
    for (kind, from, to) in strokes {
        let count = edge2::overlapping_pixels_dda(8, 8, from.into(), to.into(), &mut list)?;
        print_list(&format!("{kind} stroke"), &list[..count]);
    }

    // A stroke along a row to the right margin: the closing entry is the next row's first pixel, which the stroke does not cross. Without it each
    // entry is a pixel of the image. How many entries there are at most is known beforehand.
    let (in_row, at_margin) = (Vec2 { x: 4.5, y: 2.5 }, Vec2 { x: 7.5, y: 2.5 });
    let count = edge2::overlapping_pixels_dda(8, 8, in_row, at_margin, &mut list)?;
    print_list("stroke to the margin", &list[..count]);
    let count = edge2::pixels_inside(8, 8, in_row, at_margin, &mut list)?;
    print_list("its pixels inside", &list[..count]);
    println!("entries at most: {}", edge2::pixels_bound(8, 8, in_row, at_margin)?);

    // A stroke to a point whose x is a NaN is refused, and the place tells which of the four coordinates it is.
    let (start, nowhere) = (Vec2 { x: 0.5, y: 0.5 }, Vec2 { x: f32::NAN, y: 3.5 });
    if let Err(RefusalAt { refusal, place: Some(place) }) =
        edge2::overlapping_pixels_dda(8, 8, start, nowhere, &mut list)
    {
        println!("stroke refused: {} at {place}", refusal.number());
    }

    // A box on a sheet of 4 by 3 tiles of side 16.
    let face = Aabb2 { min_x: 10.0, min_y: 10.0, max_x: 40.0, max_y: 20.0 };
    let count = aabb2::overlapping_tiles(face, 16, 4, 3, &mut list)?;
    print_list("tiles", &list[..count]);

    // The same with a list that is an entry too short: the call is refused, and the list keeps its entries.
    let mut kept = [9; 5];
    if let Err(refusal) = aabb2::overlapping_tiles(face, 16, 4, 3, &mut kept) {
        println!("refusal: {}", refusal.number());
    }
    print_list("list", &kept);
    Ok(())
}

fn main() -> ExitCode {
    let Some(bytes) = env::args().nth(1).and_then(|path| fs::read(path).ok()) else {
        eprintln!("usage: section FILE");
        return ExitCode::from(2);
    };
    if let Err(refused) = run(&bytes) {
        eprintln!("refused {}: {refused}", refused.number());
        return ExitCode::FAILURE;
    }
    ExitCode::SUCCESS
}

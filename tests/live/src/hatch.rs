//! Reports on hatch lists, good and damaged: the library's against one put together here, with a plain reader, the Rust's clip and the edge of
//! `edge`.

use crate::edge;
use crate::inputs::Inputs;
use crate::pairs;
use crate::random::Random;
use bagnoszyk::hatch;
use del_geo_core::aabb;
use hatch_list::{Records, Refused};
use std::fmt::Write;

pub fn run(seed: u64, count: u64) -> Result<(), String> {
    let mut files = Inputs::new(pairs::named("hatch.read")?.row, seed);
    let mut random = Random::new(seed, "hatch.report");
    for _ in 0..count {
        let page = if random.one_in(4) { random.below(60) as usize } else { 300 };
        compare(&files.next().bytes[0], page)?;
    }
    println!("hatch.report {count} files, no difference");
    Ok(())
}

/// Compares the report on a file in a list of `page` bytes. A report is not refused for room, so the plain reader gets room enough: a file has
/// fewer floats than bytes.
pub fn compare(file: &[u8], page: usize) -> Result<(), String> {
    let mut out = vec![0xff; page];
    let length = hatch::report(file, &mut out);
    let mut expected = report(hatch_list::read(file, file.len())).into_bytes();
    let whole = expected.len();
    expected.resize(page.min(whole), 0);
    expected.resize(page, 0xff);
    if length == whole && out == expected {
        return Ok(());
    }
    Err(format!("the report on {file:02x?} with room for {page} bytes differs"))
}

/// The letters of the edges, by their numbers: none, left, right, lower, upper.
const LETTERS: [char; 5] = ['n', 'l', 'r', 'b', 't'];

/// The report of docs/FORMAT.md, with the Rust's clip.
fn report(read: Result<Records, Refused>) -> String {
    let records = match read {
        Ok(records) => records,
        Err(Refused { number, place }) => return format!("refused {number} {place}\n"),
    };
    let mut text = format!("HSL {} {}\n", records.version, records.count);
    for (k, record) in records.floats.as_chunks::<8>().0.iter().enumerate() {
        let [x0, y0, x1, y1, x, y, dx, dy] = record.map(f32::from_le_bytes);
        let (b, origin, direction) = ([x0, y0, x1, y1], [x, y], [dx, dy]);
        let hit = aabb::intersections_against_line::<f32, 2, 4>(&b, &origin, &direction);
        match edge::told(hit, &b, &origin, &direction) {
            Some((tmin, tmax, edge)) => {
                let (tmin, tmax, letter) = (shown(tmin), shown(tmax), LETTERS[edge as usize]);
                writeln!(text, "{} hit {tmin:08x} {tmax:08x} {letter}", k + 1).unwrap();
            }
            None => writeln!(text, "{} miss", k + 1).unwrap(),
        }
    }
    text
}

/// The bits, any zero as 0.
fn shown(x: f32) -> u32 {
    if x == 0.0 { 0 } else { x.to_bits() }
}

//! The places that refusals tell: strokes with every combination of coordinates at the limits, and every change of a byte of a hatch list.

use crate::ask::Args;
use crate::hatch;
use crate::inputs::hatch_list;
use crate::pairs::named;

/// An ordinary coordinate; the limit and the f32 beyond it, of either sign; those that are not finite.
const COORDINATES: [f32; 8] = [
    1.5,
    65_536.0,
    -65_536.0,
    65_536.0_f32.next_up(),
    (-65_536.0_f32).next_down(),
    f32::INFINITY,
    f32::NEG_INFINITY,
    f32::NAN,
];

/// The records of two files: a line that falls and one that rises, and their mirror images in x.
const EXAMPLES: [[f32; 16]; 2] = [
    [0.0, 0.0, 4.0, 2.0, 6.0, -1.0, -1.0, 1.0, 0.0, 0.0, 4.0, 2.0, 6.0, -1.0, 1.0, 1.0],
    [-4.0, 0.0, 0.0, 2.0, -6.0, -1.0, 1.0, 1.0, -4.0, 0.0, 0.0, 2.0, -6.0, -1.0, -1.0, 1.0],
];

pub fn run() -> Result<(), String> {
    let strokes = strokes()?;
    println!(
        "edge2.overlapping_pixels_dda, edge2.pixels_inside, edge2.pixels_bound {strokes} strokes at the limits each, no difference"
    );
    println!("edge2.ink {} strokes at the limits, no difference", inks()?);
    let files =
        EXAMPLES.iter().map(|floats| files(&hatch_list(floats))).sum::<Result<usize, _>>()?;
    println!(
        "hatch.read, hatch.read_floats, hatch.report {files} changed examples each, hatch.merge in each list, no difference"
    );
    Ok(())
}

/// Every combination of these coordinates at the four places.
fn ends() -> impl Iterator<Item = Vec<f32>> {
    let end = |number: usize| (0..4).map(|place| COORDINATES[number >> (3 * place) & 7]).collect();
    (0..8usize.pow(4)).map(end)
}

/// Those strokes in an image that is accepted and in one that is refused, with room and without.
fn strokes() -> Result<usize, String> {
    let walks = [named("edge2.overlapping_pixels_dda")?, named("edge2.pixels_inside")?];
    let bound = named("edge2.pixels_bound")?;
    let mut count = 0;
    for floats in ends() {
        let mut args = Args { floats, ..Args::default() };
        for wholes in [[8, 8, 9], [8, 8, 0], [8, 16_385, 9]] {
            args.wholes = wholes.to_vec();
            walks.iter().try_for_each(|walk| walk.compare(&args))?;
            args.wholes.pop();
            bound.compare(&args)?;
            count += 1;
        }
    }
    Ok(count)
}

/// Those strokes in boxes that are accepted, an infinite one among them, and in boxes that are not ordered in x, in y, or have a NaN.
fn inks() -> Result<usize, String> {
    const INFINITE: f32 = f32::INFINITY;
    let boxes = [
        [0.0, 0.0, 4.0, 2.0],
        [-INFINITE, -INFINITE, INFINITE, INFINITE],
        [-70_000.0, 1.5, 70_000.0, 1.5],
        [4.0, 0.0, 0.0, 2.0],
        [0.0, 2.0, 4.0, 0.0],
        [0.0, f32::NAN, 4.0, 2.0],
    ];
    let ink = named("edge2.ink")?;
    let mut count = 0;
    for ends in ends() {
        for b in boxes {
            let floats = [&ends[..], &b].concat();
            ink.compare(&Args { floats, ..Args::default() })?;
            count += 1;
        }
    }
    Ok(count)
}

/// Every prefix of a file and every change of one of its bytes, with room for all of its floats, for all but one, and for none; and merged with the
/// file, as the first list and as the second, with room for the merge of three records, of two, and for none.
fn files(file: &[u8]) -> Result<usize, String> {
    let readers = [named("hatch.read")?, named("hatch.read_floats")?];
    let merge = named("hatch.merge")?;
    let prefixes = (0..=file.len()).map(|length| file[..length].to_vec());
    let changes = (0..file.len()).flat_map(|at| {
        let others = (0..=255).filter(move |byte| *byte != file[at]);
        others.map(move |byte| [&file[..at], &[byte], &file[at + 1..]].concat())
    });
    let mut count = 0;
    for bytes in prefixes.chain(changes) {
        hatch::compare(&bytes, 300)?;
        let mut args = Args { bytes: [bytes, file.to_vec()], ..Args::default() };
        for room in [16, 15, 0] {
            args.wholes = vec![room];
            readers.iter().try_for_each(|reader| reader.compare(&args))?;
        }
        for room in [103, 71, 0] {
            args.wholes = vec![room];
            merge.compare(&args)?;
            args.bytes.reverse();
            merge.compare(&args)?;
        }
        count += 1;
    }
    Ok(count)
}

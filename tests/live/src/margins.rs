//! Strokes along the margins of an image, from corner to corner and off it: what both walks enter, and that a list as long as `pixels_bound`
//! answers is never too short. The second is tried with random strokes too.

use crate::inputs::Inputs;
use crate::pairs::named;
use bagnoszyk::edge2::{overlapping_pixels_dda, pixels_bound, pixels_inside};
use bagnoszyk::limits::STROKE_ENTRIES_MAX;
use bagnoszyk::{Refusal, RefusalAt, Vec2};
use del_geo_core::edge2;

const IMAGES: [[usize; 2]; 9] =
    [[0, 0], [1, 1], [1, 7], [7, 1], [4, 4], [5, 3], [3, 16], [64, 48], [16_384, 2]];

/// What each entry of a list holds before the call.
const UNTOUCHED: u32 = u32::MAX;

/// A walk, as the library has it.
type Walk = fn(usize, usize, Vec2, Vec2, &mut [u32]) -> Result<usize, RefusalAt>;

pub fn run(seed: u64, count: u64) -> Result<(), String> {
    let strokes = margins()?;
    println!(
        "{strokes} strokes along margins, from corner to corner and off the image: all but the last entry lie in it, and the bound suffices"
    );
    let accepted = bounded(seed, count)?;
    println!("{accepted} of {count} random strokes are accepted, and the bound suffices");
    Ok(())
}

fn margins() -> Result<usize, String> {
    let mut strokes = 0;
    for image @ [width, height] in IMAGES {
        let (columns, rows) = (places(width), places(height));
        for p0 in points(&columns, &rows) {
            for p1 in points(&columns, &rows).filter(|p1| *p1 != p0) {
                check(image, p0, p1).map_err(|told| format!("{image:?} {p0:?} {p1:?}: {told}"))?;
                strokes += 1;
            }
        }
    }
    Ok(strokes)
}

/// How many random strokes are accepted: by `overlapping_pixels_dda` with a list as long as the bound, by `pixels_inside` with one shorter by one.
fn bounded(seed: u64, count: u64) -> Result<usize, String> {
    let pair = named("edge2.pixels_bound")?;
    let mut inputs = Inputs::new(pair.row, seed);
    let mut list = [0; STROKE_ENTRIES_MAX];
    let mut accepted = 0;
    for _ in 0..count {
        let args = inputs.next();
        let [width, height] = [0, 1].map(|at| args.u(at) as usize);
        let [p0, p1] = [0, 2].map(|at| Vec2::from(args.fs(at)));
        let Ok(bound) = pixels_bound(width, height, p0, p1) else { continue };
        let walks: [(Walk, usize); 2] =
            [(overlapping_pixels_dda, bound), (pixels_inside, bound - 1)];
        for (walk, room) in walks {
            let told = walk(width, height, p0, p1, &mut list[..room]);
            told.map_err(|e| format!("{}: {e} with room {room}", pair.routine.request(args)))?;
        }
        accepted += 1;
    }
    Ok(accepted)
}

/// Places on a side and beside it: the margins, the middles of the pixels next to them, one ulp before the far margin, and off the image.
fn places(side: usize) -> Vec<f32> {
    let end = side as f32;
    vec![0.0, 0.5, end - 0.5, end.next_down(), end, end + 0.5, -1.5]
}

fn points(columns: &[f32], rows: &[f32]) -> impl Iterator<Item = [f32; 2]> {
    columns.iter().flat_map(|x| rows.iter().map(|y| [*x, *y]))
}

fn check([width, height]: [usize; 2], p0: [f32; 2], p1: [f32; 2]) -> Result<(), String> {
    let bound = pixels_bound(width, height, p0.into(), p1.into()).map_err(|e| e.to_string())?;
    let rust: Vec<u32> = edge2::overlapping_pixels_dda((width, height), &p0, &p1)
        .into_iter()
        .map(|entry| entry.try_into().unwrap())
        .collect();
    let inside = &rust[..rust.len() - 1];
    if let Some(entry) = inside.iter().find(|entry| **entry as usize >= width * height) {
        return Err(format!("entry {entry} is no pixel"));
    }
    let walk = |walk: Walk, entries: &[u32], room| -> Result<(), String> {
        fits(walk, [width, height], p0, p1, entries, room)
    };
    walk(overlapping_pixels_dda, &rust, bound)?;
    walk(pixels_inside, inside, bound - 1)
}

/// The entries are these for a list of this room and for one that they just fill, and what is beyond them stays as it was; one that is shorter by
/// one is refused and stays as it was.
fn fits(
    walk: Walk,
    [width, height]: [usize; 2],
    p0: [f32; 2],
    p1: [f32; 2],
    entries: &[u32],
    room: usize,
) -> Result<(), String> {
    let call = |room| {
        let mut list = vec![UNTOUCHED; room];
        let count = walk(width, height, p0.into(), p1.into(), &mut list);
        (count.map_err(|refused| refused.refusal), list)
    };
    for room in [room, entries.len()] {
        let (count, list) = call(room);
        let (first, rest) = list.split_at(entries.len());
        if count != Ok(entries.len()) || first != entries || rest.iter().any(|e| *e != UNTOUCHED) {
            return Err(format!("room {room}: {count:?} {list:?}, not {entries:?}"));
        }
    }
    match entries.len().checked_sub(1).map(call) {
        Some((count, list))
            if count != Err(Refusal::ROOM) || list.iter().any(|e| *e != UNTOUCHED) =>
        {
            Err(format!("room one short: {count:?} {list:?}"))
        }
        _ => Ok(()),
    }
}

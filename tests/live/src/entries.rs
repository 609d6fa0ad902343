//! The edge by which a line comes in, on inputs that are made for it: against the Rust's interval with the edge of `edge`, in whole faces, and in the
//! mirror.
//!
//! Mirrored in one dimension, a line hits or misses as before, with an equal interval, and the two edges of that dimension are exchanged. There is
//! one exception: where the line comes in by that dimension and both of its quotients are equal, the low edge is told before and after. A corner
//! is no exception: the dimensions keep their order, so the same one decides before and after.

mod kinds;

use crate::ask::Args;
use crate::inputs::{Slab, floats, slabs};
use crate::pairs::{Pair, named};
use crate::random::Random;
use kinds::Kinds;

/// The floats of a line in a face, and those of its result.
const LINE: usize = 4;
const RESULT: usize = 4;

/// A hit: the bits of the interval's ends, and the edge's number.
type Hit = [u64; 3];

pub fn run(seed: u64, count: u64) -> Result<(), String> {
    println!("aabb.lines {} lists of results about as long as needed, no difference", rooms()?);
    println!("aabb.line, aabb.ray {}", compare::<2>("aabb", seed, count)?);
    println!("aabb_3.line, aabb_3.ray {}", compare::<3>("aabb_3", seed, count)?);
    println!("aabb.lines {} lines of faces, each as by itself", faces(seed, count / 8)?);
    Ok(())
}

/// Line and ray of a module. How many inputs there were of each kind.
fn compare<const N: usize>(module: &str, seed: u64, count: u64) -> Result<String, String> {
    let [line, ray] = ["line", "ray"].map(|name| named(&format!("{module}.{name}")));
    let (line, ray) = (line?, ray?);
    let mut random = Random::new(seed, &format!("{module} entries"));
    let mut kinds = Kinds::default();
    for _ in 0..count {
        let slabs = slabs::<N>(&mut random);
        let hit = hit_of(&line, &slabs)?;
        // A ray has its line's edge.
        let ahead = hit_of(&ray, &slabs)?;
        if ahead.is_some() && ahead != hit {
            return Err(format!("{slabs:?}: the line has {hit:?}, the ray {ahead:?}"));
        }
        for axis in 0..N {
            let twin = mirrored(&slabs, axis);
            let (expected, exchanged) = in_the_mirror(hit, &slabs, axis);
            let found = hit_of(&line, &twin)?;
            if found != expected {
                return Err(format!("{slabs:?}: {hit:?}, mirrored in dimension {axis}: {found:?}"));
            }
            kinds.exchanged(exchanged);
        }
        kinds.add(&slabs, hit);
    }
    kinds.told(count)
}

/// The library's answer, which the Rust's with an edge must equal.
fn hit_of(pair: &Pair, slabs: &[Slab]) -> Result<Option<Hit>, String> {
    let answer = pair.answer(&Args { floats: floats(slabs), ..Args::default() })?;
    let [tmin, tmax, edge, ..] = answer.values();
    Ok((answer.status == 0).then_some([tmin, tmax, edge]))
}

fn mirrored<const N: usize>(slabs: &[Slab; N], axis: usize) -> [Slab; N] {
    let mut twin = *slabs;
    twin[axis] = twin[axis].mirrored();
    twin
}

/// What the mirror makes of a hit, and whether it exchanges the edges: nothing, if the line does not come in by an edge of that dimension.
fn in_the_mirror(hit: Option<Hit>, slabs: &[Slab], axis: usize) -> (Option<Hit>, Option<bool>) {
    let low = 2 * axis as u64 + 1;
    match hit {
        Some([tmin, tmax, edge]) if edge == low || edge == low + 1 => {
            let equal = slabs[axis].quotients().is_some_and(|[p, q]| p == q);
            let other = if edge == low { low + 1 } else { low };
            (Some([tmin, tmax, if equal { low } else { other }]), Some(!equal))
        }
        _ => (hit, None),
    }
}

/// Lists of no line and of few, with up to three floats more, for lists of results that have no room for the last line's edge, or for more.
fn rooms() -> Result<usize, String> {
    let pair = named("aabb.lines")?;
    let mut lists = 0;
    for lines in 0..5 {
        for more in 0..LINE {
            for room in 0..=RESULT * lines + 2 {
                // Box 0 0 4 2 and lines of point 6 -1 and direction -1 1, which it has from 2 to 3.
                let line = [6.0, -1.0, -1.0, 1.0];
                let floats = line.into_iter().cycle().take(LINE * lines + more);
                let floats = [0.0, 0.0, 4.0, 2.0].into_iter().chain(floats).collect();
                pair.compare(&Args { floats, wholes: vec![room as u64], ..Args::default() })?;
                lists += 1;
            }
        }
    }
    Ok(lists)
}

/// Faces of eight lines each. How many lines there are.
fn faces(seed: u64, count: u64) -> Result<u64, String> {
    let (line, lines) = (named("aabb.line")?, named("aabb.lines")?);
    let mut random = Random::new(seed, "faces of entries");
    for _ in 0..count {
        let face = face(slabs(&mut random));
        let mut args = Args { floats: floats(&face[0])[..4].to_vec(), ..Args::default() };
        let mut results = Vec::new();
        for slabs in &face {
            args.floats.extend(&floats(slabs)[4..]);
            results.extend(result(hit_of(&line, slabs)?));
        }
        args.wholes = vec![results.len() as u64];
        let found = lines.answer(&args)?.list;
        if found != results {
            return Err(format!("{face:?}: each line gives {results:08x?}, the face {found:08x?}"));
        }
    }
    Ok(8 * count)
}

/// A line both ways, and the level and the upright line through its origin, each with directions of either sign.
fn face(slabs: [Slab; 2]) -> [[Slab; 2]; 8] {
    std::array::from_fn(|number| {
        let mut line = slabs;
        let sign = if number & 4 == 0 { 1.0 } else { -1.0 };
        for (k, slab) in line.iter_mut().enumerate() {
            slab.direction *= if number >> k & 1 == 0 { sign } else { 0.0 };
        }
        line
    })
}

/// The bits of the floats that a face has for a line.
fn result(hit: Option<Hit>) -> [u32; RESULT] {
    let Some([tmin, tmax, edge]) = hit else { return [0; RESULT] };
    [1f32.to_bits(), tmin as u32, tmax as u32, (edge as f32).to_bits()]
}

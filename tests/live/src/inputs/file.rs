//! Hatch lists, good and damaged, and the records of one.

use super::source::Source;
use crate::ask::Args;
use crate::random::Random;

/// Adds a hatch list of few records, one time in three with a byte changed, and one in three longer or shorter; and the room of a list
/// for its floats, sometimes too short.
pub fn make(source: Source, random: &mut Random, args: &mut Args) {
    let count = random.below(5) as usize;
    let mut floats = Vec::new();
    for _ in 0..8 * count {
        floats.push(source.float(&floats, random));
    }
    let mut file = hatch_list(&floats);
    damage(&mut file, random);
    let room = 8 * count as u64 + random.below(3);
    args.wholes.push(room.saturating_sub(random.below(2)));
    args.bytes[0] = file;
}

/// Changes a byte one time in three, and makes the file longer or shorter one time in three.
pub fn damage(file: &mut Vec<u8>, random: &mut Random) {
    if random.one_in(3) {
        // Half of the changes are kept to the header, on which most refusals depend.
        let within = if random.one_in(2) { 7 } else { file.len() };
        let at = random.below(within as u64) as usize;
        file[at] = random.bits() as u8;
    }
    match random.below(6) {
        0 => file.push(0),
        1 => file.truncate(random.below(file.len() as u64) as usize),
        _ => {}
    }
}

/// Adds the floats of few records, and the room of a list for their file.
pub fn make_records(source: Source, random: &mut Random, args: &mut Args) {
    for _ in 0..entries(random) {
        let float = source.float(&args.floats, random);
        args.floats.push(float);
    }
    args.wholes.push(room(args.floats.len(), random));
}

/// The same with the floats as bits: also random ones, and NaNs of every kind.
pub fn make_bits(source: Source, random: &mut Random, args: &mut Args) {
    let mut floats = Vec::new();
    for _ in 0..entries(random) {
        args.patterns.push(pattern(source, &mut floats, random));
    }
    args.wholes.push(room(args.patterns.len(), random));
}

/// The bits of the next float after those already made; or random ones, or those of a NaN.
pub fn pattern(source: Source, made: &mut Vec<f32>, random: &mut Random) -> u32 {
    let float = source.float(made, random);
    made.push(float);
    match random.below(4) {
        0 => random.bits() as u32,
        1 => random.pick(&NANS) | (random.below(2) as u32) << 31,
        _ => float.to_bits(),
    }
}

/// The least and the greatest pattern of the signalling NaNs and of the quiet ones, and one between of each, without the sign.
const NANS: [u32; 6] =
    [0x7f80_0001, 0x7fa0_0000, 0x7fbf_ffff, 0x7fc0_0000, 0x7fc0_0001, 0x7fff_ffff];

/// How many entries the records have, and at times some more, which make no record. At times there are as many records as a file may have,
/// and one more.
fn entries(random: &mut Random) -> usize {
    let records = if random.one_in(2000) { 2000 + random.below(2) } else { random.below(5) };
    let more = if random.one_in(3) { random.below(8) } else { 0 };
    (8 * records + more) as usize
}

/// The room for the file of so many entries: most times enough or more, sometimes a byte or a record too few.
pub fn room(entries: usize, random: &mut Random) -> u64 {
    let size = 7 + 32 * (entries as u64 / 8);
    match random.below(8) {
        0 => size - 1,
        1 => size.saturating_sub(random.below(40)),
        2 | 3 => size + random.below(40),
        _ => size,
    }
}

/// The file of these records, eight floats each.
pub fn hatch_list(floats: &[f32]) -> Vec<u8> {
    let patterns: Vec<_> = floats.iter().map(|x| x.to_bits()).collect();
    hatch_list::written(&patterns).ok().expect("there are few records")
}

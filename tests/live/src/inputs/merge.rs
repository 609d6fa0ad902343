//! Two hatch lists to be merged, good and damaged.

use super::file::{damage, pattern, room};
use super::source::Source;
use crate::ask::Args;
use crate::random::Random;
use hatch_list::file_of;

/// The bits of the floats of a record.
pub type Record = [u32; 8];

/// Adds two hatch lists with records in common, each damaged at times, and the room of a list for their merge.
pub fn make(source: Source, random: &mut Random, args: &mut Args) {
    let mut made = Vec::new();
    args.bytes = if random.one_in(2000) {
        large(source, random, &mut made)
    } else {
        [(); 2].map(|()| records(random.below(5), source, random, &mut made))
    };
    for file in &mut args.bytes {
        if random.one_in(3) {
            damage(file, random);
        }
    }
    let merged = hatch_list::merged(&args.bytes[0], &args.bytes[1]);
    let records = merged.map_or(random.below(5) as usize, |file| file.len() / 32);
    args.wholes.push(room(8 * records, random));
}

/// Two files of as many records as may be merged, one record fewer, or up to two more: with none in common, or with many.
fn large(source: Source, random: &mut Random, made: &mut Vec<Record>) -> [Vec<u8>; 2] {
    let first = random.pick(&[0, 1, 1000, 1999, 2000]);
    let second = (1999 + random.below(4)).saturating_sub(first);
    if random.one_in(2) {
        return [first, second].map(|count| records(count, source, random, made));
    }
    [first, second].map(|count| file_of(&others(count, random)))
}

/// So many records, each other than all that were made before.
pub fn others(count: u64, random: &mut Random) -> Vec<Record> {
    (0..count).map(|_| [0; 8].map(|_| random.bits() as u32)).collect()
}

/// The file of so many records, of which many were made before or differ from such a one in a bit.
fn records(count: u64, source: Source, random: &mut Random, made: &mut Vec<Record>) -> Vec<u8> {
    let start = made.len();
    for _ in 0..count {
        let record = match random.below(8) {
            0..=2 if !made.is_empty() => made[random.below(made.len() as u64) as usize],
            3 | 4 if !made.is_empty() => {
                let record = made[random.below(made.len() as u64) as usize];
                changed(record, random)
            }
            _ => any(source, random),
        };
        made.push(record);
    }
    file_of(&made[start..])
}

/// A record of floats of every kind, some of them alike.
fn any(source: Source, random: &mut Random) -> Record {
    let mut floats = Vec::new();
    [0; 8].map(|_| pattern(source, &mut floats, random))
}

/// The record with one bit changed: often a sign, which makes -0 of 0, or the last bit of a fraction, which makes a NaN another.
fn changed(mut record: Record, random: &mut Random) -> Record {
    let bit = match random.below(4) {
        0 => 31,
        1 => 0,
        _ => random.below(32),
    };
    record[random.below(8) as usize] ^= 1 << bit;
    record
}

//! Hatch lists, which the Rust does not have: the library is compared with a plain reader, a plain writer and a plain merge (tests/hatch-list).

use super::{Row, limits, row};
use crate::answer::{Answer, Refused, RefusedIn, bits};
use crate::ask::Args;
use crate::inputs::Kind::{Bits, File, Files, Floats, Records};

pub const ROWS: &[Row] = &[
    row("hatch.read", &[File], |a| read(a, |pattern| pattern).into()),
    row("hatch.read_floats", &[File], |a| read(a, |pattern| bits(f32::from_bits(pattern))).into()),
    // Floats after the last whole record belong to no record.
    row("hatch.record_count", &[Floats], |a| (a.floats.len() as u64 / 8).into()),
    row("hatch.write", &[Bits], |a| write(&a.patterns, a.u(0)).into()),
    row("hatch.write_floats", &[Records], |a| {
        write(&a.floats.iter().map(|x| pattern(*x)).collect::<Vec<_>>(), a.u(0)).into()
    }),
    row("hatch.merge", &[Files], |a| merge(a).into()),
];

/// The bits that `hatch.write_floats` writes for a float.
fn pattern(x: f32) -> u32 {
    if x.is_nan() { 0x7fc0_0000 } else { x.to_bits() }
}

/// The bytes of the records of these patterns, for a list with so much room.
fn write(patterns: &[u32], room: u64) -> Result<Vec<u8>, Refused> {
    let most = 7 + 4 * patterns.len() as u64;
    let mut file = vec![0; room.min(most) as usize];
    let size = hatch_list::write(patterns, &mut file)?;
    file.truncate(size);
    Ok(file)
}

/// The bytes of the merged list, for a list with so much room.
fn merge(a: &Args) -> Result<Vec<u8>, RefusedIn> {
    let file = hatch_list::merged(&a.bytes[0], &a.bytes[1])?;
    limits::room(file.len(), a.u(0)).map_err(|refused| RefusedIn { list: 0, refused })?;
    Ok(file)
}

/// Version and count, and the words of the records, each through `entry`.
fn read(a: &Args, entry: fn(u32) -> u32) -> Result<Answer, Refused> {
    let records = hatch_list::read(&a.bytes[0], a.u(0).try_into().unwrap())?;
    let words = records.floats.iter().map(|word| entry(u32::from_le_bytes(*word)));
    let numbers = [records.version as u64, records.count as u64];
    Ok(Answer::with_list(numbers, words.collect()))
}

//! The hatch list of docs/FORMAT.md, read, written and merged plainly in Rust, with nothing of the library in it. The library's reader, writer and
//! merge are compared with it, and timed against it.

use std::collections::HashSet;

pub struct Records<'a> {
    pub version: usize,
    pub count: usize,
    /// Eight little-endian floats a record.
    pub floats: &'a [[u8; 4]],
}

/// A refusal: its number, and its place, which for a file that is read is a byte, and 0 where none is told.
pub struct Refused {
    pub number: u32,
    pub place: usize,
}

/// A refusal of a merge: told of list 1 or 2 of the two that are read, or with list 0 and place 0 of the merged list.
pub struct RefusedIn {
    pub list: usize,
    pub refused: Refused,
}

/// The records of a file, for a list with room for so many floats.
pub fn read(bytes: &[u8], room: usize) -> Result<Records<'_>, Refused> {
    let refused = |number, place| Err(Refused { number, place });
    let length = |number, expected| refused(number, bytes.len().min(expected));
    if !bytes.starts_with(b"HSL") {
        return refused(10, 0);
    }
    let Some((header, records)) = bytes.split_at_checked(7) else { return length(13, 7) };
    let number = |at: usize| usize::from(u16::from_le_bytes([header[at], header[at + 1]]));
    let (version, count) = (number(3), number(5));
    let expected = 7 + 32 * count;
    if version != 1 {
        refused(11, 3)
    } else if count > 2000 {
        refused(12, 5)
    } else if bytes.len() != expected {
        length(13, expected)
    } else if room < 8 * count {
        length(1, expected)
    } else {
        Ok(Records { version, count, floats: records.as_chunks().0 })
    }
}

/// The bytes of the records of these patterns, eight each, in a list of their own. An incomplete last record does not count.
pub fn written(patterns: &[u32]) -> Result<Vec<u8>, Refused> {
    Ok(file_of(counted(patterns)?))
}

/// The bytes of these records, which may be more than a file may have.
pub fn file_of(records: &[[u32; 8]]) -> Vec<u8> {
    let mut file = Vec::with_capacity(7 + 32 * records.len());
    file.extend(header(records.len()));
    for pattern in records.as_flattened() {
        file.extend(pattern.to_le_bytes());
    }
    file
}

/// Writes them to the start of a list, and tells how many they are.
pub fn write(patterns: &[u32], out: &mut [u8]) -> Result<usize, Refused> {
    let records = counted(patterns)?;
    let size = 7 + 32 * records.len();
    let Some((start, body)) = out.get_mut(..size).and_then(|file| file.split_at_mut_checked(7))
    else {
        return Err(Refused { number: 1, place: 0 });
    };
    start.copy_from_slice(&header(records.len()));
    for (bytes, pattern) in body.as_chunks_mut().0.iter_mut().zip(records.as_flattened()) {
        *bytes = pattern.to_le_bytes();
    }
    Ok(size)
}

/// The bytes of two hatch lists merged, in a list of their own: the records of the first, then those of the second that are neither in the first nor
/// earlier in the second. Records are the same if their bytes are.
pub fn merged(first: &[u8], second: &[u8]) -> Result<Vec<u8>, RefusedIn> {
    let (kept, more) = (records(1, first)?, records(2, second)?);
    let mut seen = HashSet::with_capacity(kept.len() + more.len());
    seen.extend(kept);
    let mut file = Vec::with_capacity(first.len() + second.len());
    file.extend(first);
    for record in more {
        if seen.insert(record) {
            file.extend(record);
        }
    }
    let count = few((file.len() - 7) / 32).map_err(|refused| RefusedIn { list: 0, refused })?;
    file[..7].copy_from_slice(&header(count));
    Ok(file)
}

/// The records of list 1 or 2, 32 bytes each.
fn records(list: usize, bytes: &[u8]) -> Result<&[[u8; 32]], RefusedIn> {
    // A file has fewer floats than bytes, so that it is not refused for room.
    read(bytes, bytes.len()).map_err(|refused| RefusedIn { list, refused })?;
    Ok(bytes[7..].as_chunks().0)
}

/// The records, if they are not too many.
fn counted(patterns: &[u32]) -> Result<&[[u32; 8]], Refused> {
    let (records, _) = patterns.as_chunks();
    few(records.len())?;
    Ok(records)
}

/// So many records, if they are not too many.
fn few(count: usize) -> Result<usize, Refused> {
    if count > 2000 { Err(Refused { number: 12, place: 0 }) } else { Ok(count) }
}

fn header(count: usize) -> [u8; 7] {
    let [low, high] = (count as u16).to_le_bytes();
    [b'H', b'S', b'L', 1, 0, low, high]
}

//! Two hatch lists merged: the same records again, others, and so many that they are refused in the end; and records that the library's hash does
//! not tell apart.

use super::file::patterns;
use super::{Sized, calls};
use crate::measure::Case;
use bagnoszyk::hatch;
use bagnoszyk::limits::{HATCH_BYTES_MAX, HATCH_RECORD_FLOATS as RECORD};
use std::cell::RefCell;

/// Two files, and the list for their merge.
type Files = (Vec<u8>, Vec<u8>, RefCell<Vec<u8>>);

/// How many bytes the merge has, and the last of them; or a refusal's number, and its list.
type Merged = Result<(usize, u8), (u32, usize)>;

pub fn cases() -> Vec<Case> {
    vec![
        merge("125 and 125 others", others(125)),
        merge("500 and 500 others", others(500)),
        merge("1,000 and 1,000 others", others(1000)),
        merge("2,000 and the same again", again(2000)),
        merge("2,000 and 2,000 others, refused", others(2000)),
        merge("2,000 and 2,000 others with one hash, refused", others(2000).map(with_one_hash)),
    ]
}

pub fn sized() -> Vec<Sized> {
    let same = [125, 250, 500, 1000, 2000]
        .map(|records| Sized::new("merge: a record, the same again", merge("", again(records))));
    let other = [125, 250, 500, 1000]
        .map(|records| Sized::new("merge: a record, others", merge("", others(records))));
    same.into_iter().chain(other).collect()
}

/// A list of records, and one of as many others.
fn others(records: usize) -> [Vec<u32>; 2] {
    let mut first = patterns(2 * records);
    let second = first.split_off(RECORD * records);
    [first, second]
}

fn again(records: usize) -> [Vec<u32>; 2] {
    [patterns(records), patterns(records)]
}

/// The same records in a direction that makes the library's hash 0, whatever the box and the origin are: the bits of the hash's multiplier. A caller
/// who knows it can make a merge take this long.
fn with_one_hash(mut patterns: Vec<u32>) -> Vec<u32> {
    for [.., dx, dy] in patterns.as_chunks_mut::<RECORD>().0 {
        [*dx, *dy] = [0x7f4a_7c15, 0x9e37_79b9];
    }
    patterns
}

/// A unit is a record of either list.
fn merge(name: &str, lists: [Vec<u32>; 2]) -> Case {
    let name = format!("merge: {name}");
    let units = lists.iter().map(|list| list.len() / RECORD).sum();
    let [first, second] = lists.map(|list| rust_abi::written(&list).unwrap());
    let out = RefCell::new(vec![0; HATCH_BYTES_MAX]);
    let files = (first, second, out);
    if let (Ok((size, _)), Ok(merged)) = (library(&files), rust_abi::merged(&files.0, &files.1)) {
        assert_eq!(files.2.borrow()[..size], merged, "{name}");
    }
    Case { units, ..calls(&name, vec![files], library, rust) }
}

fn library((first, second, out): &Files) -> Merged {
    let out = &mut out.borrow_mut()[..];
    let size = hatch::merge(first, second, out).map_err(|told| (told.number(), told.list))?;
    Ok((size, out[size - 1]))
}

fn rust((first, second, _): &Files) -> Merged {
    let file = rust_abi::merged(first, second).map_err(|told| (told.refused.number, told.list))?;
    Ok((file.len(), file[file.len() - 1]))
}

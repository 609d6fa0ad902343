//! Hatch lists that are merged, where the answer is known: records that differ in one bit, as many records as there may be, and each refusal of
//! each list. The library and the plain merge must both give it.

use crate::answer::Answer;
use crate::ask::Args;
use crate::inputs::{Record, others};
use crate::pairs::{Pair, named};
use crate::random::Random;
use hatch_list::file_of;
use std::collections::BTreeMap;

/// Every kind of answer: 0 or a refusal's number, and the list that it tells.
const KINDS: [(u32, u64); 11] = [
    (0, 0),
    (1, 0),
    (10, 1),
    (10, 2),
    (11, 1),
    (11, 2),
    (12, 0),
    (12, 1),
    (12, 2),
    (13, 1),
    (13, 2),
];

/// A change of a file.
type Damage = fn(&mut Vec<u8>);

/// Changes of the file of two records, and the refusal of each; the first changes nothing.
const DAMAGES: [(Damage, u32); 17] = [
    (|_| {}, 0),
    (|file| file[0] = b'h', 10),
    (|file| file[2] = b'E', 10),
    (|file| file.clear(), 10),
    (|file| file.truncate(2), 10),
    (|file| file.truncate(3), 13),
    (|file| file.truncate(6), 13),
    (|file| file[3] = 0, 11),
    (|file| file[3] = 2, 11),
    (|file| file[4] = 1, 11),
    (|file| file[3..7].fill(0xff), 11),
    (|file| file[5..7].copy_from_slice(&2001u16.to_le_bytes()), 12),
    (|file| file[5] = 1, 13),
    (|file| file[5] = 3, 13),
    (|file| file.truncate(7), 13),
    (|file| file.truncate(70), 13),
    (|file| file.push(0), 13),
];

/// A direction that makes the library's hash 0, whatever the box and the origin are: the bits of the hash's multiplier.
const ONE_HASH: [u32; 2] = [0x7f4a_7c15, 0x9e37_79b9];

/// The routine, and how often each kind of answer came.
struct Merges {
    pair: Pair,
    kinds: BTreeMap<(u32, u64), u32>,
}

pub fn run(seed: u64) -> Result<(), String> {
    let mut merges = Merges { pair: named("hatch.merge")?, kinds: BTreeMap::new() };
    let records = others(4000, &mut Random::new(seed, "merges"));
    merges.bits(records[0])?;
    merges.limits(&records)?;
    merges.damaged(&records[..3])?;
    let kinds = merges.kinds;
    if !kinds.keys().eq(&KINDS) {
        return Err(format!("hatch.merge: some kinds of answers do not come: {kinds:?}"));
    }
    let shown = kinds.iter().map(|((status, list), n)| match status {
        0 => format!("{n} are merged"),
        _ => format!("refused {status} {list} {n} times"),
    });
    let (count, shown) = (kinds.values().sum::<u32>(), shown.collect::<Vec<_>>().join(", "));
    println!("hatch.merge {count} pairs at the limits, no difference: {shown}");
    Ok(())
}

impl Merges {
    /// Records of zeros, NaNs and random bits, merged with what they are with one bit changed: both stay, and each stands once.
    fn bits(&mut self, random: Record) -> Result<(), String> {
        for record in [[0; 8], [0x7fc0_0000; 8], [0xff80_0001; 8], random] {
            for bit in 0..256 {
                let mut other = record;
                other[bit / 32] ^= 1 << (bit % 32);
                self.merged(&[record], &[other, record, other], &[record, other])?;
                self.merged(&[other, record], &[record, other], &[other, record])?;
                self.merged(&[], &[other, record, other, record], &[other, record])?;
            }
        }
        Ok(())
    }

    /// Lists of up to 2,000 records with a merge of up to 2,001, and one of 4,000.
    fn limits(&mut self, records: &[Record]) -> Result<(), String> {
        let (a, b) = records.split_at(2000);
        let (same, other) = (&[a[0]; 2000][..], &[b[0]; 2000][..]);
        let from = |first, second: &[Record]| [first, second].concat();
        // None, and repeats of the first.
        self.merged(&[], &[], &[])?;
        self.merged(a, &[], a)?;
        self.merged(same, &[], same)?;
        self.merged(same, same, same)?;
        self.merged(same, &a[..1], same)?;
        // Repeats of the second.
        self.merged(&[], a, a)?;
        self.merged(&[], same, &a[..1])?;
        self.merged(&a[..1], same, &a[..1])?;
        self.merged(&a[..1999], &other[..2], &from(&a[..1999], &b[..1]))?;
        self.merged(&a[..1000], &from(&a[1000..1500], &a[1000..1500]), &a[..1500])?;
        // Records of the first again, all and half of them, and in another order.
        let reversed: Vec<_> = a.iter().rev().copied().collect();
        self.merged(a, a, a)?;
        self.merged(a, &reversed, a)?;
        self.merged(a, &a[1999..], a)?;
        self.merged(&a[..1000], &a[..1000], &a[..1000])?;
        self.merged(&a[..1000], &a[500..1500], &a[..1500])?;
        // Exactly 2,000, and one more, and the most.
        self.merged(&a[..1000], &a[1000..], a)?;
        self.merged(&a[..1], &a[1..], a)?;
        self.merged(&a[..1999], &a[1999..], a)?;
        self.merged(&a[..1000], &a[1..], a)?;
        self.merged(&a[..1000], &records[1000..2001], &records[..2001])?;
        self.merged(&a[..1000], &records[1..2001], &records[..2001])?;
        self.merged(&a[..1999], &records[1999..2001], &records[..2001])?;
        self.merged(a, &b[..1], &records[..2001])?;
        self.merged(&a[..1], &records[1..2001], &records[..2001])?;
        self.merged(same, other, &from(same, &b[..1]))?;
        self.merged(a, b, records)?;
        // Records that the library's hash does not tell apart.
        let mut alike = a.to_vec();
        alike.iter_mut().for_each(|record| record[6..].copy_from_slice(&ONE_HASH));
        self.merged(&alike[..1000], &alike[500..1500], &alike[..1500])
    }

    /// Each two of the changes of two files, with room for their merge and with none.
    fn damaged(&mut self, records: &[Record]) -> Result<(), String> {
        for (damage_first, of_first) in DAMAGES {
            for (damage_second, of_second) in DAMAGES {
                let bytes = [file_of(&records[..2]), file_of(&records[1..])];
                let mut args = Args { bytes, ..Args::default() };
                damage_first(&mut args.bytes[0]);
                damage_second(&mut args.bytes[1]);
                for (room, of_room) in [(103, 0), (102, 1), (0, 1)] {
                    args.wholes = vec![room];
                    let answer = self.compare(&args)?;
                    let expected = match (of_first, of_second) {
                        (0, 0) => (of_room, 0),
                        (0, _) => (of_second, 2),
                        _ => (of_first, 1),
                    };
                    self.hold((answer.status, answer.told_list) == expected, &args)?;
                }
            }
        }
        Ok(())
    }

    /// Merges two lists whose merge has these records, with no room, a byte too little, enough and more. Too many records are refused with any room.
    fn merged(
        &mut self,
        first: &[Record],
        second: &[Record],
        all: &[Record],
    ) -> Result<(), String> {
        let mut args = Args { bytes: [first, second].map(file_of), ..Args::default() };
        let file = file_of(all);
        let size = file.len() as u64;
        for room in [0, size - 1, size, size + 1, size + 40, u64::MAX] {
            args.wholes = vec![room];
            let answer = self.compare(&args)?;
            let expected = match room {
                _ if all.len() > 2000 => Answer::refused(12),
                _ if room < size => Answer::refused(1),
                _ => file.clone().into(),
            };
            self.hold(answer == expected, &args)?;
        }
        Ok(())
    }

    /// The library's answer and the plain merge's, if they are equal.
    fn compare(&mut self, args: &Args) -> Result<Answer, String> {
        let answer = self.pair.answer(args)?;
        *self.kinds.entry((answer.status, answer.told_list)).or_insert(0) += 1;
        Ok(answer)
    }

    fn hold(&self, holds: bool, args: &Args) -> Result<(), String> {
        let told = || format!("{}: other than it should be", self.pair.routine.request(args));
        if holds { Ok(()) } else { Err(told()) }
    }
}

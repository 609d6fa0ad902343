//! The hatch list through the C ABI: what is read, written, merged and reported, each refusal, and what becomes of the lent lists.

use bagnoszyk::limits::{HATCH_BYTES_MAX, HATCH_FLOATS_MAX, HATCH_REPORT_MAX};
use bagnoszyk::{Read, Refusal, RefusalAt, RefusalIn, hatch};
use std::ops::Range;

const SECTION: &[u8] = include_bytes!("../../examples/section.hsl");
const REPORT: &[u8] = include_bytes!("../../crates/hatch_clip/stdout");
const RECORDS: Read = Read { version: 1, count: 306 };

/// What every entry holds before a call.
const MARKED: u32 = 0x5a5a_5a5a;

fn words() -> impl Iterator<Item = u32> {
    SECTION[7..].chunks_exact(4).map(|w| u32::from_le_bytes(w.try_into().unwrap()))
}

#[test]
fn patterns_are_the_words_of_the_file() {
    let mut out = vec![MARKED; 8 * 306 + 5];
    assert_eq!(hatch::read_patterns(SECTION, &mut out), Ok(RECORDS));
    assert!(out.iter().copied().eq(words().chain([MARKED; 5])));
}

#[test]
fn floats_have_those_bits() {
    let mut out = vec![f32::from_bits(MARKED); 8 * 306 + 5];
    assert_eq!(hatch::read_floats(SECTION, &mut out), Ok(RECORDS));
    assert!(out.iter().map(|x| x.to_bits()).eq(words().chain([MARKED; 5])));
}

#[test]
fn an_incomplete_record_does_not_count() {
    let counts = [0, 7, 8, 15, 16, 17].map(|length| hatch::record_count(&vec![0.0; length]));
    assert_eq!(counts, [0, 0, 1, 1, 2, 2]);
}

#[test]
fn the_report_is_what_the_program_prints() {
    let mut out = [0xff; HATCH_REPORT_MAX];
    let length = hatch::report(SECTION, &mut out);
    assert_eq!(&out[..length], REPORT);
    assert!(out[length..].iter().all(|&byte| byte == 0xff));
}

#[test]
fn a_report_with_too_little_room_is_cut_and_counted() {
    for room in [0, 1, 100, REPORT.len() - 1] {
        let mut out = vec![0; room];
        assert_eq!(hatch::report(SECTION, &mut out), REPORT.len());
        assert_eq!(out, REPORT[..room]);
    }
}

#[test]
fn a_refusal_gives_its_number_and_byte_and_changes_nothing() {
    let edited = |at: usize, byte: u8| {
        let mut bytes = SECTION.to_vec();
        bytes[at] = byte;
        bytes
    };
    let longer = [SECTION, &[0]].concat();
    // The second byte of the count: 0x0832 records.
    let too_many = edited(6, 8);
    let cases: [(&[u8], usize, RefusalAt); 9] = [
        (b"", HATCH_FLOATS_MAX, Refusal::MARK.at(0)),
        (&edited(2, b'l'), HATCH_FLOATS_MAX, Refusal::MARK.at(0)),
        (&SECTION[..6], HATCH_FLOATS_MAX, Refusal::LENGTH.at(6)),
        (&edited(3, 2), HATCH_FLOATS_MAX, Refusal::VERSION.at(3)),
        (&too_many, HATCH_FLOATS_MAX, Refusal::COUNT.at(5)),
        (&SECTION[..SECTION.len() - 1], HATCH_FLOATS_MAX, Refusal::LENGTH.at(SECTION.len() - 1)),
        (&longer, HATCH_FLOATS_MAX, Refusal::LENGTH.at(SECTION.len())),
        (SECTION, 8 * 306 - 1, Refusal::ROOM.at(SECTION.len())),
        (SECTION, 0, Refusal::ROOM.at(SECTION.len())),
    ];
    for (bytes, room, refused) in cases {
        let mut patterns = vec![MARKED; room];
        assert_eq!(hatch::read_patterns(bytes, &mut patterns), Err(refused));
        assert!(patterns.iter().all(|&x| x == MARKED));

        let mut floats = vec![f32::from_bits(MARKED); room];
        assert_eq!(hatch::read_floats(bytes, &mut floats), Err(refused));
        assert!(floats.iter().all(|x| x.to_bits() == MARKED));
        if refused.refusal != Refusal::ROOM {
            let mut out = [0; 100];
            let length = hatch::report(bytes, &mut out);
            let (number, place) = (refused.number(), refused.place.unwrap());
            assert_eq!(out[..length], *format!("refused {number} {place}\n").as_bytes());
        }
    }
}

/// The records of the file, and one with NaNs of every kind: signalling and quiet, of either sign.
fn patterns() -> Vec<u32> {
    const NANS: [u32; 8] = [
        0x7f80_0001,
        0xff80_0001,
        0x7fbf_ffff,
        0xffbf_ffff,
        0x7fc0_0000,
        0xffc0_0000,
        0x7fff_ffff,
        0xffff_ffff,
    ];
    words().chain(NANS).collect()
}

#[test]
fn what_was_read_is_written_as_it_stood() {
    let mut read = vec![MARKED; 8 * 306];
    hatch::read_patterns(SECTION, &mut read).unwrap();
    let mut out = vec![0x5a; SECTION.len() + 5];
    assert_eq!(hatch::write_patterns(&read, &mut out), Ok(SECTION.len()));
    assert_eq!(out, [SECTION, &[0x5a; 5]].concat());
}

#[test]
fn what_is_written_reads_as_those_records() {
    let patterns = patterns();
    let mut out = vec![0; 7 + 4 * patterns.len()];
    assert_eq!(hatch::write_patterns(&patterns, &mut out), Ok(out.len()));
    let mut read = vec![MARKED; patterns.len()];
    assert_eq!(hatch::read_patterns(&out, &mut read), Ok(Read { version: 1, count: 307 }));
    assert_eq!(read, patterns);
}

#[test]
fn floats_are_written_with_their_bits_and_a_nan_with_one_pattern() {
    let floats: Vec<_> = patterns().into_iter().map(f32::from_bits).collect();
    let one = |x: &f32| if x.is_nan() { 0x7fc0_0000 } else { x.to_bits() };
    let mut out = vec![0; 7 + 4 * floats.len()];
    assert_eq!(hatch::write_floats(&floats, &mut out), Ok(out.len()));
    let mut read = vec![MARKED; floats.len()];
    hatch::read_patterns(&out, &mut read).unwrap();
    assert!(read.iter().copied().eq(floats.iter().map(one)));
}

#[test]
fn entries_that_make_no_record_are_not_written() {
    let patterns = patterns();
    let mut whole = vec![0; 7 + 32 * 3];
    hatch::write_patterns(&patterns[..24], &mut whole).unwrap();
    for more in 0..8 {
        let mut out = vec![0x5a; whole.len() + 5];
        assert_eq!(hatch::write_patterns(&patterns[..24 + more], &mut out), Ok(whole.len()));
        assert_eq!(out, [&whole[..], &[0x5a; 5]].concat());
    }
}

#[test]
fn a_refused_write_gives_its_number_and_changes_nothing() {
    let cases = [
        // Too many records are tested before a list that is too short.
        (8 * 2001, 0, Refusal::COUNT),
        (8 * 2001, HATCH_BYTES_MAX + 32, Refusal::COUNT),
        (8 * 2001 + 7, HATCH_BYTES_MAX + 31, Refusal::COUNT),
        (8 * 2000 + 7, HATCH_BYTES_MAX - 1, Refusal::ROOM),
        (8, 38, Refusal::ROOM),
        (7, 6, Refusal::ROOM),
        (0, 0, Refusal::ROOM),
    ];
    for (entries, room, refused) in cases {
        let mut out = vec![0x5a; room];
        assert_eq!(hatch::write_patterns(&vec![MARKED; entries], &mut out), Err(refused));
        assert_eq!(hatch::write_floats(&vec![1.0; entries], &mut out), Err(refused));
        assert!(out.iter().all(|&byte| byte == 0x5a));
    }
}

/// The hatch list of these records. Record n has the bits n eight times.
fn listed(records: impl IntoIterator<Item = u32>) -> Vec<u8> {
    let patterns: Vec<_> = records.into_iter().flat_map(|n| [n; 8]).collect();
    let mut out = vec![0; 7 + 4 * patterns.len()];
    hatch::write_patterns(&patterns, &mut out).unwrap();
    out
}

#[test]
fn a_merge_keeps_the_first_list_and_adds_what_the_second_has_more() {
    let cases: [(&[u32], &[u32], &[u32]); 8] = [
        (&[1, 2], &[2, 3], &[1, 2, 3]),
        (&[2, 1], &[3, 1, 2], &[2, 1, 3]),
        (&[1, 1, 2], &[], &[1, 1, 2]),
        (&[], &[2, 1, 2], &[2, 1]),
        (&[1, 2, 1], &[3, 1, 3], &[1, 2, 1, 3]),
        (&[], &[], &[]),
        // 0 and -0; a NaN and itself, and another.
        (&[0], &[0x8000_0000], &[0, 0x8000_0000]),
        (&[0x7fc0_0000], &[0x7fc0_0000, 0xffc0_0000], &[0x7fc0_0000, 0xffc0_0000]),
    ];
    for (first, second, merged) in cases {
        let [first, second, merged] = [first, second, merged].map(|r| listed(r.iter().copied()));
        let mut out = vec![0x5a; merged.len() + 5];
        assert_eq!(hatch::merge(&first, &second, &mut out), Ok(merged.len()));
        assert_eq!(out, [&merged[..], &[0x5a; 5]].concat());
    }
}

#[test]
fn a_list_merged_with_itself_or_with_none_is_itself() {
    for second in [SECTION, &listed([])] {
        let mut out = vec![0x5a; SECTION.len()];
        assert_eq!(hatch::merge(SECTION, second, &mut out), Ok(SECTION.len()));
        assert_eq!(out, SECTION);
    }
}

#[test]
fn a_merged_list_has_at_most_2000_records() {
    let fit: [(Range<u32>, Range<u32>); 6] = [
        (0..2000, 0..0),
        (0..0, 0..2000),
        (0..2000, 0..2000),
        (0..1999, 1999..2000),
        (0..1, 1..2000),
        (0..1000, 500..2000),
    ];
    for (first, second) in fit {
        let mut out = vec![0x5a; HATCH_BYTES_MAX];
        assert_eq!(hatch::merge(&listed(first), &listed(second), &mut out), Ok(HATCH_BYTES_MAX));
        assert_eq!(out, listed(0..2000));
    }
    let too_many =
        [(0..2000, 2000..2001), (0..1, 1..2001), (0..2000, 1..2001), (0..2000, 2000..4000)];
    for (first, second) in too_many {
        // Too many records are tested before a list that is too short.
        for room in [0, HATCH_BYTES_MAX, HATCH_BYTES_MAX + 32] {
            let mut out = vec![0x5a; room];
            let merged = hatch::merge(&listed(first.clone()), &listed(second.clone()), &mut out);
            assert_eq!(merged, Err(Refusal::COUNT.in_list(0, 0)));
            assert!(out.iter().all(|&byte| byte == 0x5a));
        }
    }
}

#[test]
fn a_refused_merge_gives_number_list_and_byte_and_changes_nothing() {
    let good = listed([1, 2]);
    let cut = &good[..good.len() - 1];
    let longer = [&good[..], &[0]].concat();
    let damaged: [(&[u8], Refusal, usize); 7] = [
        (b"", Refusal::MARK, 0),
        (b"HSL\x01\0\0", Refusal::LENGTH, 6),
        // The version is tested before the count, and the count before the length.
        (b"HSL\x02\0\xd1\x07", Refusal::VERSION, 3),
        (b"HSL\x01\0\xd1\x07", Refusal::COUNT, 5),
        (b"HSL\x01\0\xd0\x07", Refusal::LENGTH, 7),
        (cut, Refusal::LENGTH, cut.len()),
        (&longer, Refusal::LENGTH, good.len()),
    ];
    let refuses = |first: &[u8], second: &[u8], room: usize, refused: RefusalIn| {
        let mut out = vec![0x5a; room];
        assert_eq!(hatch::merge(first, second, &mut out), Err(refused));
        assert!(out.iter().all(|&byte| byte == 0x5a));
    };
    for (bytes, refusal, place) in damaged {
        // A refusal of the first list comes before one of the second, and both before one of the merged list.
        for room in [0, HATCH_BYTES_MAX] {
            refuses(bytes, &good, room, refusal.in_list(1, place));
            refuses(&good, bytes, room, refusal.in_list(2, place));
            for (other, _, _) in damaged {
                refuses(bytes, other, room, refusal.in_list(1, place));
            }
        }
    }
    refuses(&good, &good, good.len() - 1, Refusal::ROOM.in_list(0, 0));
    refuses(&good, &listed([2, 3]), good.len() + 31, Refusal::ROOM.in_list(0, 0));
    refuses(&listed([]), &listed([]), 6, Refusal::ROOM.in_list(0, 0));
}

#[test]
fn a_refusal_of_a_merge_says_where_it_is() {
    let told = Refusal::LENGTH.in_list(2, 39);
    assert_eq!((told.number(), Refusal::from(told)), (13, Refusal::LENGTH));
    let text = "the bytes of a hatch list are too few or too many";
    assert_eq!(told.to_string(), format!("{text} (list 2, byte 39)"));
    assert_eq!(format!("{told:?}"), format!("LENGTH (13) in list 2 at 39: {text}"));

    let merged = Refusal::COUNT.in_list(0, 0);
    let text = "a hatch list has too many records";
    assert_eq!(merged.to_string(), format!("{text} (the merged list)"));
    assert_eq!(format!("{merged:?}"), format!("COUNT (12) of the merged list: {text}"));
}

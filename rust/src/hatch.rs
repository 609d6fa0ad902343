//! Hatch lists, read, written, merged and reported on. The bytes of a hatch list are "HSL", a
//! 16-bit version, which is 1, a 16-bit count n of at most 2,000, and n records of eight floats:
//! box (min_x, min_y, max_x, max_y), origin (x, y), direction (x, y). Little-endian; 7 + 32 n bytes
//! in all. Records are read and written as floats, or as patterns, the bits of the floats, in which
//! a NaN keeps its own.
//!
//! Written by tests/generate from the exported functions bgz_hatch_..; not to be edited.

use crate::answers::Read;
use crate::refusal::{Refusal, RefusalAt, RefusalIn};

mod raw {
    use crate::answers::*;

    unsafe extern "C" {
        #[link_name = "bgz_hatch_read_floats"]
        pub fn read_floats(
            bytes: *const u8,
            bytes_length: usize,
            out: *mut f32,
            out_length: usize,
        ) -> ReadAnswer;

        #[link_name = "bgz_hatch_read_patterns"]
        pub fn read_patterns(
            bytes: *const u8,
            bytes_length: usize,
            out: *mut u32,
            out_length: usize,
        ) -> ReadAnswer;

        #[link_name = "bgz_hatch_record_count"]
        pub fn record_count(floats: *const f32, floats_length: usize) -> usize;

        #[link_name = "bgz_hatch_write_patterns"]
        pub fn write_patterns(
            patterns: *const u32,
            patterns_length: usize,
            out: *mut u8,
            out_length: usize,
        ) -> CountAnswer;

        #[link_name = "bgz_hatch_write_floats"]
        pub fn write_floats(
            floats: *const f32,
            floats_length: usize,
            out: *mut u8,
            out_length: usize,
        ) -> CountAnswer;

        #[link_name = "bgz_hatch_merge"]
        pub fn merge(
            first: *const u8,
            first_length: usize,
            second: *const u8,
            second_length: usize,
            out: *mut u8,
            out_length: usize,
        ) -> MergeAnswer;

        #[link_name = "bgz_hatch_report"]
        pub fn report(
            bytes: *const u8,
            bytes_length: usize,
            out: *mut u8,
            out_length: usize,
        ) -> usize;
    }
}

/// Reads the floats of the records of a hatch list. A float may have any bits; a NaN is read as a
/// NaN, whose bits may differ.
///
/// Writes the 8 * count floats to the start of `out` and answers version and count.
///
/// # Errors
///
/// [`Refusal::MARK`] if the bytes do not begin with "HSL"; [`Refusal::LENGTH`] if they are fewer
/// than 7; [`Refusal::VERSION`] if the version is not 1; [`Refusal::COUNT`] if the count is above
/// 2,000; [`Refusal::LENGTH`] if they are not 7 + 32 * count; [`Refusal::ROOM`] if `out` is shorter
/// than 8 * count.
///
/// Place: a byte, from 0 on: 0 with [`Refusal::MARK`], 3 with [`Refusal::VERSION`], 5 with
/// [`Refusal::COUNT`]; with [`Refusal::LENGTH`] the number of the bytes if they are too few, and 7
/// + 32 * count if they are too many; with [`Refusal::ROOM`] 7 + 32 * count.
///
/// # Example
///
/// ```
/// use bagnoszyk::{Read, hatch};
///
/// let mut out: [f32; 0] = [];
/// assert_eq!(hatch::read_floats(b"HSL\x01\0\0\0", &mut out), Ok(Read { version: 1, count: 0 }));
/// ```
#[inline]
pub fn read_floats(bytes: &[u8], out: &mut [f32]) -> Result<Read, RefusalAt> {
    let a = unsafe {
        // SAFETY: each list is lent for the call alone, by its start and its length.
        raw::read_floats(bytes.as_ptr(), bytes.len(), out.as_mut_ptr(), out.len())
    };
    a.result_at(&[Refusal::ROOM, Refusal::MARK, Refusal::VERSION, Refusal::COUNT, Refusal::LENGTH])
}

/// [`hatch::read_floats`](crate::hatch::read_floats) with each float as its bits, so that a NaN
/// keeps them.
///
/// Writes the 8 * count patterns to the start of `out` and answers version and count.
///
/// # Errors
///
/// The refusals of [`hatch::read_floats`](crate::hatch::read_floats), in the same order.
///
/// Place: that of [`hatch::read_floats`](crate::hatch::read_floats).
///
/// # Example
///
/// ```
/// use bagnoszyk::{Read, hatch};
///
/// let mut out: [u32; 0] = [];
/// assert_eq!(hatch::read_patterns(b"HSL\x01\0\0\0", &mut out), Ok(Read { version: 1, count: 0 }));
/// ```
#[inline]
pub fn read_patterns(bytes: &[u8], out: &mut [u32]) -> Result<Read, RefusalAt> {
    let a = unsafe {
        // SAFETY: each list is lent for the call alone, by its start and its length.
        raw::read_patterns(bytes.as_ptr(), bytes.len(), out.as_mut_ptr(), out.len())
    };
    a.result_at(&[Refusal::ROOM, Refusal::MARK, Refusal::VERSION, Refusal::COUNT, Refusal::LENGTH])
}

/// How many records a list of floats has, eight floats each; an incomplete last one does not count.
///
/// # Example
///
/// ```
/// use bagnoszyk::hatch;
///
/// assert_eq!(hatch::record_count(&[0.0, 0.0, 4.0, 2.0, 6.0, -1.0, -1.0, 1.0, 0.0]), 1);
/// ```
#[inline]
pub fn record_count(floats: &[f32]) -> usize {
    unsafe {
        // SAFETY: each list is lent for the call alone, by its start and its length.
        raw::record_count(floats.as_ptr(), floats.len())
    }
}

/// A hatch list of version 1 from the bits of its floats, eight a record. The number n of records
/// is the length of `patterns` / 8, rounded down: an incomplete last record is not written. What is
/// written, [`hatch::read_patterns`](crate::hatch::read_patterns) reads as the same records. To
/// save what [`hatch::read_patterns`](crate::hatch::read_patterns) read, hand over the 8 * count
/// patterns that it wrote: the bytes are those that it read, also where a float is a NaN.
///
/// Writes 7 + 32 * n bytes to the start of `out` and answers how many that is;
/// [`HATCH_BYTES_MAX`](crate::limits::HATCH_BYTES_MAX) are room for any.
///
/// # Errors
///
/// [`Refusal::COUNT`] if n is above 2,000; [`Refusal::ROOM`] if `out` is shorter than 7 + 32 * n.
///
/// # Example
///
/// ```
/// use bagnoszyk::hatch;
///
/// let mut out: [u8; 40] = [9; 40];
/// assert_eq!(hatch::write_patterns(&[1, 2, 3, 4, 5, 6, 7, 8], &mut out), Ok(39));
/// assert_eq!(out, [72, 83, 76, 1, 0, 1, 0, 1, 0, 0, 0, 2, 0, 0, 0, 3, 0, 0, 0, 4, 0, 0, 0, 5, 0, 0, 0, 6, 0, 0, 0, 7, 0, 0, 0, 8, 0, 0, 0, 9]);
/// ```
#[inline]
pub fn write_patterns(patterns: &[u32], out: &mut [u8]) -> Result<usize, Refusal> {
    let a = unsafe {
        // SAFETY: each list is lent for the call alone, by its start and its length.
        raw::write_patterns(patterns.as_ptr(), patterns.len(), out.as_mut_ptr(), out.len())
    };
    a.result()
}

/// [`hatch::write_patterns`](crate::hatch::write_patterns) from the floats themselves, n records of
/// eight. A NaN is written with the bits 7fc00000, whatever its own are, and every other float with
/// its own bits. What is written, [`hatch::read_floats`](crate::hatch::read_floats) reads as the
/// same records. The floats that it read are written as the bytes that it read if the file's NaNs
/// have the bits 7fc00000; [`hatch::read_patterns`](crate::hatch::read_patterns) and
/// [`hatch::write_patterns`](crate::hatch::write_patterns) keep the bits of every NaN.
///
/// Writes 7 + 32 * n bytes to the start of `out` and answers how many that is.
///
/// # Errors
///
/// The refusals of [`hatch::write_patterns`](crate::hatch::write_patterns), in the same order.
///
/// # Example
///
/// ```
/// use bagnoszyk::hatch;
///
/// let mut out: [u8; 40] = [9; 40];
/// assert_eq!(hatch::write_floats(&[0.0, 0.0, 4.0, 2.0, 6.0, -1.0, -1.0, 1.0], &mut out), Ok(39));
/// assert_eq!(out, [72, 83, 76, 1, 0, 1, 0, 0, 0, 0, 0, 0, 0, 0, 0, 0, 0, 128, 64, 0, 0, 0, 64, 0, 0, 192, 64, 0, 0, 128, 191, 0, 0, 128, 191, 0, 0, 128, 63, 9]);
/// ```
#[inline]
pub fn write_floats(floats: &[f32], out: &mut [u8]) -> Result<usize, Refusal> {
    let a = unsafe {
        // SAFETY: each list is lent for the call alone, by its start and its length.
        raw::write_floats(floats.as_ptr(), floats.len(), out.as_mut_ptr(), out.len())
    };
    a.result()
}

/// Two hatch lists merged into one of version 1: the records of `first` in its order, with its
/// repeats, and then those of `second` in its order that are neither in `first` nor earlier in
/// `second`. Two records are the same if all their bits are: 0 is not -0, and two NaNs are the same
/// only if their bits are. [`hatch::read_patterns`](crate::hatch::read_patterns) reads the merged
/// list as these records. If `second` has no records, the merged list is `first`, byte for byte. A
/// call takes some 20,300 bytes of the stack.
///
/// Writes the 7 + 32 * n bytes of the n records to the start of `out` and answers how many bytes
/// that is. The bytes of `first` and of `second` together, less 7, are always room enough, and so
/// are [`HATCH_BYTES_MAX`](crate::limits::HATCH_BYTES_MAX).
///
/// # Errors
///
/// `first`, then `second`, as [`hatch::read_patterns`](crate::hatch::read_patterns) refuses them,
/// but for [`Refusal::ROOM`]; [`Refusal::COUNT`] if n is above 2,000; [`Refusal::ROOM`] if `out` is
/// shorter than 7 + 32 * n.
///
/// Place: `list` is 1 with a refusal of `first` and 2 with one of `second`; `place` is the byte
/// that [`hatch::read_patterns`](crate::hatch::read_patterns) tells with [`Refusal::MARK`],
/// [`Refusal::VERSION`], [`Refusal::COUNT`] or [`Refusal::LENGTH`]. Both are 0 if n is above 2,000
/// or `out` is too short.
///
/// # Example
///
/// ```
/// use bagnoszyk::hatch;
///
/// let mut out: [u8; 8] = [9; 8];
/// assert_eq!(hatch::merge(b"HSL\x01\0\0\0", b"HSL\x01\0\0\0", &mut out), Ok(7));
/// assert_eq!(out, [72, 83, 76, 1, 0, 0, 0, 9]);
/// ```
#[inline]
pub fn merge(first: &[u8], second: &[u8], out: &mut [u8]) -> Result<usize, RefusalIn> {
    let a = unsafe {
        // SAFETY: each list is lent for the call alone, by its start and its length.
        raw::merge(
            first.as_ptr(),
            first.len(),
            second.as_ptr(),
            second.len(),
            out.as_mut_ptr(),
            out.len(),
        )
    };
    a.result_in()
}

/// The report on a hatch list, as text in ASCII. The first line is "HSL", version and count. Then
/// each record has a line of its own: its place from 1, and what
/// [`aabb::intersections_against_line`](crate::aabb::intersections_against_line) answers for its
/// box, origin and direction: "miss", or "hit" with tmin and tmax, each as the eight lower-case
/// hexadecimal digits of its bits, any zero as 00000000, and the edge as a letter: l for
/// [`Edge::Left`](crate::Edge::Left), r for [`Edge::Right`](crate::Edge::Right), b for
/// [`Edge::Lower`](crate::Edge::Lower), t for [`Edge::Upper`](crate::Edge::Upper), n for `None`.
/// Fields stand one space apart, and a line ends in a line feed. For bytes that are no hatch list
/// the only line is "refused", the number of the refusal of
/// [`hatch::read_floats`](crate::hatch::read_floats), and its byte. Bytes beyond the first
/// [`HATCH_BYTES_MAX`](crate::limits::HATCH_BYTES_MAX) + 1 change nothing: they need not be handed
/// over.
///
/// Writes the text to the start of `out`, with no NUL after it, and answers its length in bytes. If
/// `out` is shorter, it is filled with the first bytes of the text, and the answer is still the
/// whole length; [`HATCH_REPORT_MAX`](crate::limits::HATCH_REPORT_MAX) are room for any.
///
/// # Example
///
/// ```
/// use bagnoszyk::hatch;
///
/// let mut out: [u8; 8] = [0; 8];
/// assert_eq!(hatch::report(b"HSL\x01\0\0\0", &mut out), 8);
/// assert_eq!(out, *b"HSL 1 0\n");
/// ```
#[inline]
pub fn report(bytes: &[u8], out: &mut [u8]) -> usize {
    unsafe {
        // SAFETY: each list is lent for the call alone, by its start and its length.
        raw::report(bytes.as_ptr(), bytes.len(), out.as_mut_ptr(), out.len())
    }
}

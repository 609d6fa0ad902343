//! What the routines take at most, what they write at most, and the floats of a line.
//!
//! Written by tests/generate from tests/boundary/limits.py; not to be edited.

/// The longest side of an image in pixels, and of a sheet in tiles.
pub const IMAGE_SIDE_MAX: usize = 16_384;

/// The floats of a line in a list of lines.
pub const LINE_FLOATS: usize = 4;

/// The floats that a line gives in a list of results.
pub const LINE_RESULT_FLOATS: usize = 4;

/// The largest coordinate of a stroke's ends, in size.
pub const STROKE_COORDINATE_MAX: f32 = 65_536.0;

/// Room for the entries of any stroke.
pub const STROKE_ENTRIES_MAX: usize = 16_385;

/// The largest coordinate of a box whose tiles are listed, in size.
pub const TILE_COORDINATE_MAX: f32 = 1_048_576.0;

/// The longest side of a tile.
pub const TILE_SIZE_MAX: usize = 4_096;

/// The floats of a record of a hatch list.
pub const HATCH_RECORD_FLOATS: usize = 8;

/// The most records of a hatch list.
pub const HATCH_RECORDS_MAX: usize = 2_000;

/// Room for the floats of any hatch list.
pub const HATCH_FLOATS_MAX: usize = 16_000;

/// The bytes of the longest hatch list.
pub const HATCH_BYTES_MAX: usize = 64_007;

/// Room for any report: none has more bytes.
pub const HATCH_REPORT_MAX: usize = 58_014;

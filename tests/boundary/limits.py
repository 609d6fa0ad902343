"""What the routines take at most, what they write at most, and the floats of a line and of a record: name, value, comment.

rust/tests/limits.rs tries each limit on both sides, rust/tests/lines.rs the floats of a line.
"""

SIDE = 16384
RECORDS = 2000

LIMITS = (
    ("IMAGE_SIDE_MAX", SIDE, "The longest side of an image in pixels, and of a sheet in tiles."),
    ("LINE_FLOATS", 4, "The floats of a line in a list of lines."),
    ("LINE_RESULT_FLOATS", 4, "The floats that a line gives in a list of results."),
    ("STROKE_COORDINATE_MAX", 65536, "The largest coordinate of a stroke's ends, in size."),
    ("STROKE_ENTRIES_MAX", SIDE + 1, "Room for the entries of any stroke."),
    ("TILE_COORDINATE_MAX", 1048576, "The largest coordinate of a box whose tiles are listed, in size."),
    ("TILE_SIZE_MAX", 4096, "The longest side of a tile."),
    ("HATCH_RECORD_FLOATS", 8, "The floats of a record of a hatch list."),
    ("HATCH_RECORDS_MAX", RECORDS, "The most records of a hatch list."),
    ("HATCH_FLOATS_MAX", 8 * RECORDS, "Room for the floats of any hatch list."),
    ("HATCH_BYTES_MAX", 7 + 32 * RECORDS, "The bytes of the longest hatch list."),
    ("HATCH_REPORT_MAX", 58014, "Room for any report: none has more bytes."),
)

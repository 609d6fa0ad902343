#!/usr/bin/env python3
"""Writes section.hsl, a sample hatch list: the section through two parts that touch at x = 0, in millimetres.

The right face is hatched with lines that rise at 45 degrees, and the left one with lines that fall: faces that touch are hatched so that they
read as two parts. Each rising line is followed by its falling twin, mirrored at x = 0. The first and the last pair run past the corners and
miss. y grows downwards, so that on a screen a line that rises goes down to the right. crates/hatch_clip/stdin is a copy of the file.
"""

import math
import pathlib
import struct

WIDTH, HEIGHT = 72.5, 48.25
SPACING = 0.8


def rising():
    """Box, point and direction of each line of the right face. A point is where its line meets y = 0."""
    unit = math.sqrt(0.5)
    lines = math.floor((WIDTH + HEIGHT) / SPACING) + 3
    for k in range(lines):
        yield 0.0, 0.0, WIDTH, HEIGHT, (k - 1) * SPACING - HEIGHT, 0.0, unit, unit


def twin(low_x, low_y, high_x, high_y, x, y, dx, dy):
    """The same line mirrored at x = 0."""
    return -high_x, low_y, -low_x, high_y, -x, y, -dx, dy


def main():
    records = [r for line in rising() for r in (line, twin(*line))]
    header = b"HSL" + struct.pack("<HH", 1, len(records))
    body = b"".join(struct.pack("<8f", *r) for r in records)
    pathlib.Path(__file__).with_name("section.hsl").write_bytes(header + body)


main()

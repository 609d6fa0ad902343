//! The kinds of arguments: what the numbers that a routine takes stand for. The names of those of space end in 3.

use std::ops::Range;

#[derive(Clone, Copy, PartialEq)]
pub enum Kind {
    Float,
    Radius,
    /// Low end, high end.
    Range,
    Point,
    Direction,
    /// Low corner, high corner.
    Box,
    /// Centre and two half edges.
    TurnedBox,
    Point3,
    Direction3,
    /// Low corner, high corner.
    Box3,
    /// Centre and three half edges.
    TurnedBox3,
    /// A 3 by 3 matrix in column-major order.
    Matrix,
    /// A side of an image.
    Side,
    /// The place of a box in a list.
    Index,
    /// The number of a corner of a box of space.
    Corner,
    /// A list of floats.
    Floats,
    /// Room, and a list of lines: point and direction of each.
    Lines,
    /// Width and height of an image, two ends, room.
    Stroke,
    /// Width and height of an image, two ends.
    Ends,
    /// Two ends of a stroke, with no image.
    Pen,
    /// A box, the size of a tile, width and height of a sheet, room.
    Tiles,
    /// Room, and the bytes of a hatch list.
    File,
    /// Room, and the bytes of two hatch lists.
    Files,
    /// Room, and the floats of records.
    Records,
    /// Room, and the bits of the floats of records.
    Bits,
}

impl Kind {
    /// A letter for each of its numbers: f is a float, u a whole number, r the room of a list, F a list of floats, P of
    /// the bits of floats, B of bytes.
    pub fn takes(self) -> &'static str {
        match self {
            Kind::Float | Kind::Radius => "f",
            Kind::Range | Kind::Point | Kind::Direction => "ff",
            Kind::Box | Kind::Pen => "ffff",
            Kind::TurnedBox | Kind::Box3 => "ffffff",
            Kind::Point3 | Kind::Direction3 => "fff",
            Kind::TurnedBox3 => "ffffffffffff",
            Kind::Matrix => "fffffffff",
            Kind::Side | Kind::Index | Kind::Corner => "u",
            Kind::Floats => "F",
            Kind::Lines | Kind::Records => "rF",
            Kind::Stroke => "uuffffr",
            Kind::Ends => "uuffff",
            Kind::Tiles => "ffffuuur",
            Kind::File => "rB",
            Kind::Files => "rBB",
            Kind::Bits => "rP",
        }
    }

    /// The number of its floats; a list has any number.
    pub fn floats(self) -> Option<usize> {
        let letters = self.takes();
        (!letters.contains('F')).then(|| letters.matches('f').count())
    }

    /// How many dimensions it has, with a mirror image in each: 2 in the plane, 3 in space, 0 if it is no figure.
    fn dimensions(self) -> usize {
        use Kind::*;
        match self {
            Point | Direction | Box | TurnedBox | Lines | Stroke | Ends | Pen | Tiles => 2,
            Point3 | Direction3 | Box3 | TurnedBox3 => 3,
            _ => 0,
        }
    }

    /// Mirrors its floats in x (axis 0), y (axis 1) or z (axis 2).
    fn mirror(self, axis: usize, floats: &mut [f32]) {
        use Kind::*;
        let dimensions = self.dimensions();
        // A stroke is mirrored within its own bounding box, so that it stays in the image.
        if dimensions != 0 && !matches!(self, Stroke | Ends) {
            floats.iter_mut().skip(axis).step_by(dimensions).for_each(|x| *x = -*x);
        }
        if matches!(self, Box | Box3 | Tiles | Stroke | Ends) {
            floats.swap(axis, axis + dimensions);
        }
    }
}

/// The axes in which an input has mirror images: those of its figures.
pub fn axes(shape: &[Kind]) -> Range<usize> {
    0..shape.iter().map(|kind| kind.dimensions()).max().unwrap_or(0)
}

/// Mirrors the floats of an input in one of its axes. Twice gives them back.
pub fn mirror(shape: &[Kind], axis: usize, mut floats: &mut [f32]) {
    for kind in shape {
        let count = kind.floats().unwrap_or(floats.len());
        let (own, rest) = floats.split_at_mut(count);
        kind.mirror(axis, own);
        floats = rest;
    }
}

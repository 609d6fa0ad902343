//! Refusals.
//!
//! Written by tests/generate from crates/types/src/refusal.rt; not to be edited.

use std::error::Error;
use std::fmt;

/// Why a call was refused. Its number is the status that the C function gives.
#[derive(Clone, Copy, PartialEq, Eq, Hash)]
pub struct Refusal(u32);

impl Refusal {
    /// A lent list is shorter than what is to be written.
    pub const ROOM: Refusal = Refusal(1);

    /// Both ends of a stroke are equal.
    pub const SAME_ENDS: Refusal = Refusal(2);

    /// A coordinate is above its limit in size, or for tiles not finite.
    pub const COORDINATE: Refusal = Refusal(3);

    /// A side of an image or a sheet is too large, or a tile size is 0 or too large.
    pub const SIZE: Refusal = Refusal(4);

    /// A range is not ordered: low is not at most high.
    pub const ORDER: Refusal = Refusal(5);

    /// A radius is not at least 0.
    pub const RADIUS: Refusal = Refusal(6);

    /// A length to the turned box is NaN.
    pub const NAN_LENGTH: Refusal = Refusal(7);

    /// A corner has no image.
    pub const NO_IMAGE: Refusal = Refusal(8);

    /// An index is not below the number of boxes.
    pub const INDEX: Refusal = Refusal(9);

    /// A hatch list does not begin with its mark.
    pub const MARK: Refusal = Refusal(10);

    /// A hatch list has an unknown version.
    pub const VERSION: Refusal = Refusal(11);

    /// A hatch list has too many records.
    pub const COUNT: Refusal = Refusal(12);

    /// The bytes of a hatch list are too few or too many.
    pub const LENGTH: Refusal = Refusal(13);

    /// A list of lines is not a multiple of four floats.
    pub const LINES: Refusal = Refusal(14);

    /// A coordinate of a stroke is not finite.
    pub const NOT_FINITE: Refusal = Refusal(15);

    /// A corner's projection is NaN on an axis that is reached, whether it separates the boxes or
    /// not.
    pub const NAN_PROJECTION: Refusal = Refusal(16);

    /// The number of a corner is above 7.
    pub const CORNER: Refusal = Refusal(17);

    /// The number of the refusal.
    #[inline]
    pub const fn number(self) -> u32 {
        self.0
    }

    /// The refusal at a place, to compare an error with: `refused == Refusal::NOT_FINITE.at(2)`.
    #[inline]
    pub const fn at(self, place: usize) -> RefusalAt {
        RefusalAt { refusal: self, place: Some(place) }
    }

    /// The refusal at a byte of a list, to compare an error with:
    /// `refused == Refusal::VERSION.in_list(2, 3)`. Of the merged list both are 0.
    #[inline]
    pub const fn in_list(self, list: usize, place: usize) -> RefusalIn {
        RefusalIn { refusal: self, list, place }
    }

    #[inline]
    pub(crate) const fn numbered(number: u32) -> Self {
        Refusal(number)
    }

    const fn name_and_text(self) -> (&'static str, &'static str) {
        match self {
            Refusal::ROOM => ("ROOM", "a lent list is shorter than what is to be written"),
            Refusal::SAME_ENDS => ("SAME_ENDS", "both ends of a stroke are equal"),
            Refusal::COORDINATE => {
                ("COORDINATE", "a coordinate is above its limit in size, or for tiles not finite")
            }
            Refusal::SIZE => (
                "SIZE",
                "a side of an image or a sheet is too large, or a tile size is 0 or too large",
            ),
            Refusal::ORDER => ("ORDER", "a range is not ordered: low is not at most high"),
            Refusal::RADIUS => ("RADIUS", "a radius is not at least 0"),
            Refusal::NAN_LENGTH => ("NAN_LENGTH", "a length to the turned box is NaN"),
            Refusal::NO_IMAGE => ("NO_IMAGE", "a corner has no image"),
            Refusal::INDEX => ("INDEX", "an index is not below the number of boxes"),
            Refusal::MARK => ("MARK", "a hatch list does not begin with its mark"),
            Refusal::VERSION => ("VERSION", "a hatch list has an unknown version"),
            Refusal::COUNT => ("COUNT", "a hatch list has too many records"),
            Refusal::LENGTH => ("LENGTH", "the bytes of a hatch list are too few or too many"),
            Refusal::LINES => ("LINES", "a list of lines is not a multiple of four floats"),
            Refusal::NOT_FINITE => ("NOT_FINITE", "a coordinate of a stroke is not finite"),
            Refusal::NAN_PROJECTION => (
                "NAN_PROJECTION",
                "a corner's projection is NaN on an axis that is reached, whether it separates the boxes or not",
            ),
            Refusal::CORNER => ("CORNER", "the number of a corner is above 7"),
            _ => ("UNKNOWN", "not a refusal of this library"),
        }
    }
}

impl fmt::Display for Refusal {
    fn fmt(&self, f: &mut fmt::Formatter<'_>) -> fmt::Result {
        f.write_str(self.name_and_text().1)
    }
}

/// Name, number and text, for the message of a panic.
impl fmt::Debug for Refusal {
    fn fmt(&self, f: &mut fmt::Formatter<'_>) -> fmt::Result {
        let (name, text) = self.name_and_text();
        write!(f, "{name} ({}): {text}", self.0)
    }
}

impl Error for Refusal {}

/// A refusal, with its place if it tells one. Which refusals do, and what the place counts, stands
/// under Errors in the documentation of each routine.
#[derive(Clone, Copy, PartialEq, Eq, Hash)]
pub struct RefusalAt {
    /// Why the call was refused.
    pub refusal: Refusal,
    /// The place, and `None` if this refusal tells none. 0 is a place too.
    pub place: Option<usize>,
}

impl RefusalAt {
    /// The number of the refusal.
    #[inline]
    pub const fn number(self) -> u32 {
        self.refusal.number()
    }
}

/// For `?` in a function whose errors are refusals alone: the place is dropped.
impl From<RefusalAt> for Refusal {
    fn from(told: RefusalAt) -> Self {
        told.refusal
    }
}

/// For `?` in a function whose errors may have a place. This one has none, and equals none that
/// has.
impl From<Refusal> for RefusalAt {
    fn from(refusal: Refusal) -> Self {
        RefusalAt { refusal, place: None }
    }
}

impl fmt::Display for RefusalAt {
    fn fmt(&self, f: &mut fmt::Formatter<'_>) -> fmt::Result {
        match self.place {
            Some(place) => write!(f, "{} (place {place})", self.refusal),
            None => write!(f, "{}", self.refusal),
        }
    }
}

/// Name, number, place and text, for the message of a panic.
impl fmt::Debug for RefusalAt {
    fn fmt(&self, f: &mut fmt::Formatter<'_>) -> fmt::Result {
        let (name, text) = self.refusal.name_and_text();
        match self.place {
            Some(place) => write!(f, "{name} ({}) at {place}: {text}", self.number()),
            None => write!(f, "{:?}", self.refusal),
        }
    }
}

impl Error for RefusalAt {}

/// A refusal of a merge, with the list that is refused and the byte of it.
#[derive(Clone, Copy, PartialEq, Eq, Hash)]
pub struct RefusalIn {
    /// Why the call was refused.
    pub refusal: Refusal,
    /// The list: 1 or 2 of the two that are read, and 0 for the merged list.
    pub list: usize,
    /// The byte of list 1 or 2, from 0 on. With list 0 it is 0 and tells nothing.
    pub place: usize,
}

impl RefusalIn {
    /// The number of the refusal.
    #[inline]
    pub const fn number(self) -> u32 {
        self.refusal.number()
    }
}

/// For `?` in a function whose errors are refusals alone: list and place are dropped.
impl From<RefusalIn> for Refusal {
    fn from(told: RefusalIn) -> Self {
        told.refusal
    }
}

impl fmt::Display for RefusalIn {
    fn fmt(&self, f: &mut fmt::Formatter<'_>) -> fmt::Result {
        match self.list {
            0 => write!(f, "{} (the merged list)", self.refusal),
            list => write!(f, "{} (list {list}, byte {})", self.refusal, self.place),
        }
    }
}

/// Name, number, list, place and text, for the message of a panic.
impl fmt::Debug for RefusalIn {
    fn fmt(&self, f: &mut fmt::Formatter<'_>) -> fmt::Result {
        let (name, text) = self.refusal.name_and_text();
        match self.list {
            0 => write!(f, "{name} ({}) of the merged list: {text}", self.number()),
            list => {
                write!(f, "{name} ({}) in list {list} at {}: {text}", self.number(), self.place)
            }
        }
    }
}

impl Error for RefusalIn {}

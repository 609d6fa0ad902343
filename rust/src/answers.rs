//! Answers: what a routine gives where that is more than one number, and the structs of the C ABI.
//!
//! Written by tests/generate from crates/c_answers/src/lib.rt and crates/c_hatch/src/answer.rt; not to be edited.

use crate::edge::Edge;
use crate::refusal::{Refusal, RefusalAt, RefusalIn};
use crate::shapes::{Aabb2, Aabb3, Vec2, Vec3};

/// The status of an answer.
pub const ANSWERED: u32 = 0;

/// The status where there is none of what was asked for. Any other number is a refusal.
pub const NONE: u32 = 255;

/// The stretch of a line or a ray in a box, by the parameters t of its two ends: the points origin
/// + t * direction.
#[derive(Clone, Copy, Debug, PartialEq)]
pub struct Interval {
    /// Where it begins.
    pub tmin: f32,
    /// Where it ends.
    pub tmax: f32,
    /// The edge by which the line comes in at tmin, or none.
    pub edge: Option<Edge>,
}

/// Columns from x0 up to and without x1, rows from y0 up to and without y1.
#[derive(Clone, Copy, Debug, PartialEq, Eq)]
pub struct Pixels {
    /// The first column.
    pub x0: usize,
    /// The first row.
    pub y0: usize,
    /// The column after the last.
    pub x1: usize,
    /// The row after the last.
    pub y1: usize,
}

/// The version of a hatch list, and how many records were read.
#[derive(Clone, Copy, Debug, PartialEq, Eq)]
pub struct Read {
    /// The version.
    pub version: usize,
    /// The number of records.
    pub count: usize,
}

#[repr(C)]
pub struct FloatAnswer {
    pub status: u32,
    pub value: f32,
}

impl FloatAnswer {
    #[inline]
    pub fn result(self) -> Result<f32, Refusal> {
        result(self.status, self.value)
    }

    #[inline]
    pub fn result_of_option(self) -> Result<Option<f32>, Refusal> {
        result_of_option(self.status, self.value)
    }
}

#[repr(C)]
pub struct PointAnswer {
    pub status: u32,
    pub value: Vec2,
}

impl PointAnswer {
    #[inline]
    pub fn option(self) -> Option<Vec2> {
        option(self.status, self.value)
    }

    #[inline]
    pub fn result(self) -> Result<Vec2, Refusal> {
        result(self.status, self.value)
    }
}

#[repr(C)]
pub struct Point3Answer {
    pub status: u32,
    pub value: Vec3,
}

impl Point3Answer {
    #[inline]
    pub fn result(self) -> Result<Vec3, Refusal> {
        result(self.status, self.value)
    }
}

#[repr(C)]
pub struct BoxAnswer {
    pub status: u32,
    pub value: Aabb2,
}

impl BoxAnswer {
    #[inline]
    pub fn result(self) -> Result<Aabb2, Refusal> {
        result(self.status, self.value)
    }
}

#[repr(C)]
pub struct Box3Answer {
    pub status: u32,
    pub value: Aabb3,
}

impl Box3Answer {
    #[inline]
    pub fn result(self) -> Result<Aabb3, Refusal> {
        result(self.status, self.value)
    }
}

#[repr(C)]
pub struct BoolAnswer {
    pub status: u32,
    pub value: bool,
}

impl BoolAnswer {
    #[inline]
    pub fn result(self) -> Result<bool, Refusal> {
        result(self.status, self.value)
    }
}

#[repr(C)]
pub struct IntervalAnswer {
    pub status: u32,
    /// Where it begins.
    pub tmin: f32,
    /// Where it ends.
    pub tmax: f32,
    /// The edge by which the line comes in at tmin, or none.
    pub edge: u32,
}

impl IntervalAnswer {
    #[inline]
    pub fn option(self) -> Option<Interval> {
        option(
            self.status,
            Interval { tmin: self.tmin, tmax: self.tmax, edge: Edge::from_number(self.edge) },
        )
    }
}

#[repr(C)]
pub struct PixelsAnswer {
    pub status: u32,
    /// The first column.
    pub x0: usize,
    /// The first row.
    pub y0: usize,
    /// The column after the last.
    pub x1: usize,
    /// The row after the last.
    pub y1: usize,
}

impl PixelsAnswer {
    #[inline]
    pub fn result(self) -> Result<Pixels, Refusal> {
        result(self.status, Pixels { x0: self.x0, y0: self.y0, x1: self.x1, y1: self.y1 })
    }
}

#[repr(C)]
pub struct CountAnswer {
    pub status: u32,
    pub count: usize,
    /// The place of a refusal that tells one, and else 0.
    pub place: usize,
}

impl CountAnswer {
    #[inline]
    pub fn result(self) -> Result<usize, Refusal> {
        result(self.status, self.count)
    }

    #[inline]
    pub fn result_at(self, placed: &[Refusal]) -> Result<usize, RefusalAt> {
        result_at(self.status, self.count, self.place, placed)
    }
}

#[repr(C)]
pub struct InkAnswer {
    pub status: u32,
    pub value: f32,
    /// The place of a refusal that tells one, and else 0.
    pub place: usize,
}

impl InkAnswer {
    #[inline]
    pub fn result_at(self, placed: &[Refusal]) -> Result<f32, RefusalAt> {
        result_at(self.status, self.value, self.place, placed)
    }
}

#[repr(C)]
pub struct ReadAnswer {
    pub status: u32,
    /// The version.
    pub version: usize,
    /// The number of records.
    pub count: usize,
    /// The byte of a refusal, and else 0.
    pub place: usize,
}

impl ReadAnswer {
    #[inline]
    pub fn result_at(self, placed: &[Refusal]) -> Result<Read, RefusalAt> {
        result_at(
            self.status,
            Read { version: self.version, count: self.count },
            self.place,
            placed,
        )
    }
}

#[repr(C)]
pub struct MergeAnswer {
    pub status: u32,
    /// The number of bytes.
    pub count: usize,
    /// The list of a refusal, 1 or 2, and else 0.
    pub list: usize,
    /// The byte of a refusal, and else 0.
    pub place: usize,
}

impl MergeAnswer {
    #[inline]
    pub fn result_in(self) -> Result<usize, RefusalIn> {
        result_in(self.status, self.count, self.list, self.place)
    }
}

#[inline]
pub(crate) fn option<T>(status: u32, value: T) -> Option<T> {
    (status == ANSWERED).then_some(value)
}

#[inline]
pub(crate) fn result<T>(status: u32, value: T) -> Result<T, Refusal> {
    if status == ANSWERED { Ok(value) } else { Err(Refusal::numbered(status)) }
}

#[inline]
pub(crate) fn result_of_option<T>(status: u32, value: T) -> Result<Option<T>, Refusal> {
    if status == NONE { Ok(None) } else { result(status, value).map(Some) }
}

/// `placed` are the refusals that tell a place.
#[inline]
pub(crate) fn result_at<T>(
    status: u32,
    value: T,
    place: usize,
    placed: &[Refusal],
) -> Result<T, RefusalAt> {
    result(status, value)
        .map_err(|refusal| RefusalAt { refusal, place: placed.contains(&refusal).then_some(place) })
}

#[inline]
pub(crate) fn result_in<T>(
    status: u32,
    value: T,
    list: usize,
    place: usize,
) -> Result<T, RefusalIn> {
    result(status, value).map_err(|refusal| refusal.in_list(list, place))
}

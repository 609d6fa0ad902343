//! Views of a flat list of floats as boxes.

use crate::aabb2;
use crate::aabb3;
use crate::refusal::Refusal;
use crate::shapes::{Aabb2, Aabb3};

/// Upright boxes in a flat list of floats, four to a box in the order of [`Aabb2`]'s fields.
///
/// # Example
///
/// ```
/// use bagnoszyk::{Aabb2, Boxes, Refusal};
///
/// let boxes = Boxes { all: &[0.0, 0.0, 1.0, 1.0, 2.0, 2.0, 3.0, 3.0, 4.0] };
/// assert_eq!(boxes.count(), 2);
/// assert_eq!(boxes.at(1), Ok(Aabb2::from([2.0, 2.0, 3.0, 3.0])));
/// assert_eq!(boxes.at(2), Err(Refusal::INDEX));
/// ```
#[derive(Clone, Copy, Debug, PartialEq)]
pub struct Boxes<'a> {
    /// The floats. Up to three after the last whole box belong to none.
    pub all: &'a [f32],
}

impl Boxes<'_> {
    /// How many whole boxes the list has.
    #[inline]
    pub fn count(self) -> usize {
        aabb2::count(self.all)
    }

    /// The box at an index, from 0.
    ///
    /// # Errors
    ///
    /// [`Refusal::INDEX`] if the index is not below the count.
    #[inline]
    pub fn at(self, index: usize) -> Result<Aabb2, Refusal> {
        aabb2::from_aabbs(self.all, index)
    }
}

/// Upright boxes of space in a flat list of floats, six to a box in the order of [`Aabb3`]'s fields.
///
/// # Example
///
/// ```
/// use bagnoszyk::{Aabb3, Boxes3, Refusal};
///
/// let boxes = Boxes3 { all: &[0.0, 0.0, 0.0, 1.0, 1.0, 1.0, 2.0] };
/// assert_eq!(boxes.count(), 1);
/// assert_eq!(boxes.at(0), Ok(Aabb3::from([0.0, 0.0, 0.0, 1.0, 1.0, 1.0])));
/// assert_eq!(boxes.at(1), Err(Refusal::INDEX));
/// ```
#[derive(Clone, Copy, Debug, PartialEq)]
pub struct Boxes3<'a> {
    /// The floats. Up to five after the last whole box belong to none.
    pub all: &'a [f32],
}

impl Boxes3<'_> {
    /// How many whole boxes the list has.
    #[inline]
    pub fn count(self) -> usize {
        aabb3::count(self.all)
    }

    /// The box at an index, from 0.
    ///
    /// # Errors
    ///
    /// [`Refusal::INDEX`] if the index is not below the count.
    #[inline]
    pub fn at(self, index: usize) -> Result<Aabb3, Refusal> {
        aabb3::from_aabbs(self.all, index)
    }
}

//! The names that the Rust's files take from itertools. Nothing here is called:
//! only quaternions and the singular value decomposition use them.

use std::cmp::Ordering;

pub trait Itertools: Iterator {
    fn position_max_by<F>(self, _compare: F) -> Option<usize>
    where
        Self: Sized,
        F: FnMut(&Self::Item, &Self::Item) -> Ordering,
    {
        unimplemented!()
    }
}

impl<I: Iterator> Itertools for I {}

#[macro_export]
macro_rules! iproduct {
    ($a:expr, $b:expr) => {
        $crate::product($a, $b)
    };
}

pub fn product<A, B>(_a: A, _b: B) -> std::vec::IntoIter<(usize, usize)> {
    unimplemented!()
}

//! Debian's num-traits, 0.2.15, with `Float::clamp`, which edge2.rs calls. It is defined as num-traits
//! defines it from 0.2.19 on.

pub use debian::*;

pub trait Float: debian::Float {
    fn clamp(self, low: Self, high: Self) -> Self {
        debian::clamp(self, low, high)
    }
}

impl<T: debian::Float> Float for T {}

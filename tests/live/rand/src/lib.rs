//! The names that the Rust's files take from rand. Nothing here is called:
//! the library has no random boxes or points.

use distr::{Distribution, StandardUniform};

pub trait Rng {}

pub trait RngExt: Rng {
    fn random<T>(&mut self) -> T
    where
        StandardUniform: Distribution<T>,
    {
        unimplemented!()
    }
}

impl<R: Rng> RngExt for R {}

pub mod distr {
    pub struct StandardUniform;

    pub trait Distribution<T> {}

    impl Distribution<f32> for StandardUniform {}
}

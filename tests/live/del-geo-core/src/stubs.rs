//! The names that the Rust's files take from other modules of theirs, so that the files that build.rs lists are enough. Nothing here is called.

pub mod edge3 {
    pub trait Edge3Trait<T> {}
}

pub mod mat2_col_major {
    pub trait Mat2ColMajor<T> {
        fn scale(&self, s: T) -> Self;
    }

    impl<T> Mat2ColMajor<T> for [T; 4] {
        fn scale(&self, _s: T) -> Self {
            unimplemented!()
        }
    }

    pub fn from_identity<T>() -> [T; 4] {
        unimplemented!()
    }

    pub fn from_outer_product<T>(_a: &[T; 2], _b: &[T; 2]) -> [T; 4] {
        unimplemented!()
    }

    pub fn add_four<T>(_a: &[T; 4], _b: &[T; 4], _c: &[T; 4], _d: &[T; 4]) -> [T; 4] {
        unimplemented!()
    }
}

pub mod mat3_row_major {
    use super::mat3_sym::EigenDecompositionModes;

    pub fn squared_norm<T>(_a: &[T; 9]) -> T {
        unimplemented!()
    }

    pub fn norm<T>(_a: &[T; 9]) -> T {
        unimplemented!()
    }

    pub fn svd<T>(_a: &[T; 9], _mode: EigenDecompositionModes) -> Option<([T; 9], [T; 3], [T; 9])> {
        unimplemented!()
    }

    pub fn svd_differential<T>(
        _u: &[T; 9],
        _s: &[T; 3],
        _v: &[T; 9],
    ) -> ([[T; 3]; 9], [[T; 3]; 9], [[T; 3]; 9]) {
        unimplemented!()
    }
}

pub mod mat3_sym {
    pub enum EigenDecompositionModes {
        JacobiNumIter(usize),
    }
}

pub mod mat4_col_major {
    pub fn transform_homogeneous<T>(_a: &[T; 16], _p: &[T; 3]) -> Option<([T; 3], T)> {
        unimplemented!()
    }
}

//! The Rust's routine of mat3_col_major.rs: what the library's is compared with.

use super::{Row, row};
use crate::inputs::Kind::{Matrix, Point};
use del_geo_core::mat3_col_major;

pub const ROWS: &[Row] = &[row("mat3.transform_homogeneous", &[Matrix, Point], |a| {
    mat3_col_major::transform_homogeneous(&a.fs(0), &a.fs(9)).into()
})];

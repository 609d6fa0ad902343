//! The Rust that the library is compared with: del-geo-core's own files, unchanged.

// The files stay unchanged, so their warnings stay too.
#![allow(warnings)]

mod stubs;
use stubs::{edge3, mat2_col_major, mat3_row_major, mat3_sym, mat4_col_major};

include!(concat!(env!("OUT_DIR"), "/modules.rs"));

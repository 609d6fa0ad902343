//! Geometry for patent drawings in f32, proved: the library's C ABI as safe Rust, a file for each module.
//!
//! Every function takes any bits in every number, NaN and infinities among them, and ends. What may be missing is an [`Option`]. What may be
//! refused is a [`Result`] with a [`Refusal`], with a [`RefusalAt`] where a refusal may tell a place, or with a [`RefusalIn`] where it may tell a
//! list and a byte of it.
//!
//! Under Errors the conditions stand in the order in which they are tested; the first that holds is the refusal. A lent list is written
//! from its start, and its other entries stay as they are. A refused call changes nothing. Functions keep no state, so threads may call at the
//! same time.
//!
//! ```
//! use bagnoszyk::{Aabb2, Refusal, Vec2, aabb, aabb2, edge2, hatch};
//!
//! fn stretch(p: Vec2, q: Vec2) -> Result<f32, Refusal> {
//!     let face = aabb2::add_point(aabb2::from_point(p, 0.0)?, q, 1.0)?;
//!     let hit = aabb::intersections_against_line(face, p, Vec2 { x: 1.0, y: 0.0 });
//!     Ok(hit.map_or(0.0, |t| t.tmax - t.tmin))
//! }
//!
//! assert_eq!(stretch(Vec2 { x: 0.0, y: 0.0 }, Vec2 { x: 4.0, y: 2.0 }), Ok(5.0));
//!
//! let reversed = Aabb2 { min_x: 1.0, min_y: 0.0, max_x: 0.0, max_y: 1.0 };
//! let refused = aabb2::nearest_point2(reversed, Vec2 { x: 0.0, y: 0.0 }).unwrap_err();
//! assert_eq!(refused, Refusal::ORDER);
//! assert_eq!(refused.to_string(), "a range is not ordered: low is not at most high");
//! assert_eq!(format!("{refused:?}"), "ORDER (5): a range is not ordered: low is not at most high");
//!
//! let (start, end) = (Vec2 { x: 0.5, y: 0.5 }, Vec2 { x: f32::NAN, y: 0.5 });
//! let refused = edge2::overlapping_pixels_dda(8, 8, start, end, &mut [0; 9]).unwrap_err();
//! assert_eq!(refused, Refusal::NOT_FINITE.at(2));
//! assert_eq!(refused.to_string(), "a coordinate of a stroke is not finite (place 2)");
//! assert_eq!(format!("{refused:?}"), "NOT_FINITE (15) at 2: a coordinate of a stroke is not finite");
//! assert_eq!(Refusal::from(refused), Refusal::NOT_FINITE);
//!
//! let refused = hatch::merge(b"HSL\x01\0\0\0", b"HSL\x02\0\0\0", &mut [0; 7]).unwrap_err();
//! assert_eq!(refused, Refusal::VERSION.in_list(2, 3));
//! assert_eq!(refused.to_string(), "a hatch list has an unknown version (list 2, byte 3)");
//! assert_eq!(format!("{refused:?}"), "VERSION (11) in list 2 at 3: a hatch list has an unknown version");
//! assert_eq!(Refusal::from(refused), Refusal::VERSION);
//! ```
//!
//! # Floats
//!
//! Each operation is rounded to the nearest float, ties to even, as IEEE 754 has it. The caller must leave the rounding mode as it is at the
//! start of a program, and subnormal numbers on. If it does not, answers may be others; that calls still end and keep to their lists is tested,
//! and not proved. Exceptions must not trap, as they do not at the start of a program; calls may raise their flags.
//!
//! A comparison with a NaN is false, but for "not equal". An answer that is a NaN may have any NaN's bits. +0 and -0 are equal in every
//! comparison. A minimum or maximum gives the first of two equal zeros, and the other operand where one is a NaN.
//!
//! # Axes
//!
//! x grows with the column and y with the row. A line rises where y grows with x, as in direction (1, 1), and falls where it shrinks, as in
//! direction (1, -1). The lower edge of a box is the one at min_y. On a screen with row 0 on top a line that rises goes down to the right, and
//! a lower edge is on top. In space z is the third axis; the caller decides where it points.
//!
//! # Building
//!
//! To build against an installed library, run `./install PREFIX` in the repository, name this folder in your Cargo.toml,
//! `bagnoszyk = { path = "REPOSITORY/rust" }`, and let BAGNOSZYK_STATICLIB name the archive's folder by its whole path:
//!
//! ```text
//! BAGNOSZYK_STATICLIB=PREFIX/lib cargo build
//! ```
//!
//! The wrappers are marked to be inlined, so that a program calls the library's functions and nothing between.

#![warn(missing_docs)]

pub mod aabb;
pub mod aabb2;
pub mod aabb3;
pub mod aabb_3;
#[doc(hidden)]
pub mod answers;
mod edge;
pub mod edge2;
pub mod f32;
pub mod hatch;
pub mod limits;
pub mod mat3;
pub mod obb2;
pub mod obb3;
pub mod range;
mod refusal;
pub mod shapes;
pub mod vec2;
mod view;

pub use answers::{Interval, Pixels, Read};
pub use edge::Edge;
pub use refusal::{Refusal, RefusalAt, RefusalIn};
pub use shapes::*;
pub use view::{Boxes, Boxes3};

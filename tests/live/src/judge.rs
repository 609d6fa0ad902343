//! What the library's answers are compared with, a row for each routine, by its name in requests, a file for each module. A row calls the Rust's
//! routine. Where the Rust has none, a few lines of plain Rust stand in its place, and the row's file says so.

mod aabb;
mod aabb2;
mod aabb3;
mod aabb_3;
mod difference;
mod edge2;
mod f32;
mod hatch;
mod limits;
mod mat3;
mod obb2;
mod obb3;
mod panics;
mod parts;
mod range;
mod root;
mod vec2;

pub use panics::silence as silence_panics;
pub use root::sqrt_digits;

use crate::answer::Answer;
use crate::ask::Args;
use crate::inputs::Kind;

/// A routine that the library's is compared with.
pub struct Row {
    pub name: &'static str,
    /// What the arguments are, in their order: inputs are made by it.
    pub shape: &'static [Kind],
    call: fn(&Args) -> Answer,
    /// The refusal that stands for a panic.
    panic: Option<u32>,
    /// Whether an input is compared: every one but those that divide by a zero whose sign a minimum or maximum leaves open (docs/DIFFERENCES.md).
    pub domain: fn(&Args) -> bool,
}

const fn row(name: &'static str, shape: &'static [Kind], call: fn(&Args) -> Answer) -> Row {
    Row { name, shape, call, panic: None, domain: |_| true }
}

impl Row {
    /// The same routine, whose panics are this refusal.
    const fn panic_is(self, refusal: u32) -> Self {
        Row { panic: Some(refusal), ..self }
    }

    /// The same routine, compared on these inputs alone.
    const fn within(self, domain: fn(&Args) -> bool) -> Self {
        Row { domain, ..self }
    }

    /// A letter for each argument, as the library's table has it.
    pub fn takes(&self) -> String {
        self.shape.iter().map(|kind| kind.takes()).collect()
    }

    /// The answer to compare with; nothing if the Rust panics and no refusal stands for that.
    pub fn answer(&self, args: &Args) -> Option<Answer> {
        panics::caught(|| (self.call)(args)).or(self.panic.map(Answer::refused))
    }
}

pub fn all() -> impl Iterator<Item = &'static Row> {
    let modules = [
        f32::ROWS,
        range::ROWS,
        vec2::ROWS,
        mat3::ROWS,
        edge2::ROWS,
        aabb::ROWS,
        aabb2::ROWS,
        obb2::ROWS,
        aabb_3::ROWS,
        aabb3::ROWS,
        obb3::ROWS,
        hatch::ROWS,
    ];
    modules.into_iter().flatten()
}

pub fn named(name: &str) -> Option<&'static Row> {
    all().find(|row| row.name == name)
}

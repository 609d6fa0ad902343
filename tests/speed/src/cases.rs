//! What is timed. Each case first checks that both sides give the same answers on its inputs.

mod clip;
mod face;
mod file;
mod ink;
mod merge;
mod nearest;
mod root;
mod space;
mod strokes;
mod tiles;
mod turned;

use crate::measure::{Case, Run};
use std::fmt::Debug;
use std::hint::black_box;
use std::rc::Rc;

pub fn compared() -> Vec<Case> {
    [
        clip::cases(),
        face::cases(),
        strokes::cases(),
        ink::cases(),
        tiles::cases(),
        turned::cases(),
        space::cases(),
        nearest::cases(),
        root::cases(),
        file::cases(),
        merge::cases(),
    ]
    .into_iter()
    .flatten()
    .collect()
}

/// The library alone, on so many lines, pixels, tiles or records.
pub struct Sized {
    pub name: &'static str,
    pub units: usize,
    pub library: Run,
}

pub fn sized() -> Vec<Sized> {
    [face::sized(), strokes::sized(), tiles::sized(), file::sized(), merge::sized()]
        .into_iter()
        .flatten()
        .collect()
}

impl Sized {
    fn new(name: &'static str, case: Case) -> Sized {
        Sized { name, units: case.units, library: case.library }
    }
}

/// A case of one call for each input.
fn calls<I: 'static, A: PartialEq + Debug>(
    name: &str,
    inputs: Vec<I>,
    library: impl Fn(&I) -> A + 'static,
    rust: impl Fn(&I) -> A + 'static,
) -> Case {
    for input in &inputs {
        assert_eq!(library(input), rust(input), "{name}");
    }
    let inputs = Rc::new(inputs);
    Case {
        name: name.to_string(),
        units: inputs.len(),
        library: each(&inputs, library),
        rust: each(&inputs, rust),
        goal: None,
    }
}

fn each<I: 'static, A>(inputs: &Rc<Vec<I>>, call: impl Fn(&I) -> A + 'static) -> Run {
    let inputs = inputs.clone();
    Box::new(move || {
        for input in inputs.iter() {
            black_box(call(input));
        }
    })
}

impl Case {
    fn goal(self, goal: f64) -> Case {
        Case { goal: Some(goal), ..self }
    }
}

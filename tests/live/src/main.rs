//! The comparison: the library and the Rust are given the same inputs, and their answers are compared. The Rust's side is in `judge`.

mod all;
mod answer;
mod ask;
mod compare;
mod cover;
mod edge;
mod entries;
mod figures;
mod hatch;
mod inputs;
mod judge;
mod margins;
mod merges;
mod options;
mod pairs;
mod places;
mod random;
mod saved;
mod squares;
mod tally;
mod vectors;

use options::Options;
use std::env;
use std::process::ExitCode;

const USAGE: &str = "usage: tests/compare MODE [--seed S] [--count N] [--only PREFIX]
  compare  compare the library with the Rust on the figures and on random inputs for each routine; without --only also on the places of refusals,
           strokes along margins, every exact root, entries, hatch lists, and tiles by brute force
  all      compare the library with the Rust on all 4294967296 inputs of each routine of one float
  cover    compare the tiles listed with their definition, by brute force on small sheets
  vectors  print requests with the Rust's answers: the figures, and 100 for each routine
  tally    count the kinds of the Rust's answers, to see that each kind comes often

  --seed S       decides the random inputs; 1 if it is not given
  --count N      inputs for each routine; 1000000 in compare, 100 in vectors, 10000 in tally if it is not given
  --only PREFIX  only the routines whose names begin so";

/// A mode: nothing, or what is wrong.
type Mode = fn(&Options) -> Result<(), String>;

fn main() -> ExitCode {
    judge::silence_panics();
    let mut words = env::args().skip(1);
    let mode: Mode = match words.next().as_deref() {
        Some("compare") => compare::run,
        Some("all") => all::run,
        Some("cover") => cover::run,
        Some("vectors") => vectors::run,
        Some("tally") => tally::run,
        _ => |_| Err(USAGE.to_string()),
    };
    match Options::parse(words).and_then(|options| mode(&options)) {
        Ok(()) => ExitCode::SUCCESS,
        Err(message) => {
            eprintln!("{message}");
            ExitCode::FAILURE
        }
    }
}

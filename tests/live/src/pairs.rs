//! A routine of the library beside the one that it is compared with.

use crate::answer::Answer;
use crate::ask::{self, Args, Routine};
use crate::judge::{self, Row};

pub struct Pair {
    pub routine: &'static Routine,
    pub row: &'static Row,
}

/// The routines of the library whose names begin so.
pub fn pairs(prefix: &str) -> Result<Vec<Pair>, String> {
    let named = ask::all().filter(|routine| routine.name().starts_with(prefix));
    let pairs: Vec<_> = named.map(pair).collect::<Result<_, _>>()?;
    if pairs.is_empty() { Err(format!("no routine begins with {prefix}")) } else { Ok(pairs) }
}

pub fn named(name: &str) -> Result<Pair, String> {
    pair(ask::named(name).ok_or(format!("the library has no {name}"))?)
}

/// The routine beside its row of `judge`, which must be there and have the same arguments.
pub fn pair(routine: &'static Routine) -> Result<Pair, String> {
    let name = routine.name();
    let row = judge::named(name).ok_or(format!("tests/live/src/judge has no {name}"))?;
    if routine.takes() != row.takes() {
        return Err(format!("{name} of tests/live/src/judge has other arguments"));
    }
    Ok(Pair { routine, row })
}

impl Pair {
    /// Nothing if the answers are equal; else the request and both answers.
    pub fn compare(&self, args: &Args) -> Result<(), String> {
        self.answer(args).map(|_| ())
    }

    /// The answer of both if they are equal; else the request and both answers.
    pub fn answer(&self, args: &Args) -> Result<Answer, String> {
        let ours = self.routine.ask(args);
        let rust = self.row.answer(args);
        if rust.as_ref() == Some(&ours) {
            return Ok(ours);
        }
        let rust = rust.map_or("panicked".to_string(), |answer| self.routine.show(&answer));
        let ours = self.routine.show(&ours);
        Err(format!("{}\n  library: {ours}\n  Rust:    {rust}", self.routine.request(args)))
    }

    /// The Rust's answer as a line; an error if it panics and no refusal stands for that.
    pub fn rust_line(&self, args: &Args) -> Result<String, String> {
        let answer = self.row.answer(args);
        let panicked = || format!("{}: the Rust panicked", self.routine.request(args));
        Ok(self.routine.show(&answer.ok_or_else(panicked)?))
    }
}

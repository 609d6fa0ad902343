//! Times two sides in turn, so that what slows the machine down slows both.

use crate::clock;

/// What is timed on both sides, and how many lines, pixels, tiles, records or calls one run has.
pub struct Case {
    pub name: String,
    pub units: usize,
    pub library: Run,
    pub rust: Run,
    /// The ratio to stay below.
    pub goal: Option<f64>,
}

pub type Run = Box<dyn Fn()>;

#[derive(Clone, Copy)]
pub enum Side {
    Library,
    Rust,
}

/// How many times each side is timed.
const ROUNDS: usize = 101;

/// How long one side is timed without a pause, in nanoseconds: short, so that few of these stretches are interrupted.
const STRETCH: f64 = 500_000.0;

/// The nanoseconds of one run, of the library and of the Rust, for each round.
pub struct Figures {
    pairs: Vec<[f64; 2]>,
}

pub fn measure(case: &Case) -> Figures {
    let sides = [&case.library, &case.rust];
    let repeats = sides.map(repeats);
    let mut pairs = Vec::new();
    for round in 0..ROUNDS {
        let mut pair = [0.0; 2];
        // Each side goes first every other time.
        for side in [round % 2, 1 - round % 2] {
            pair[side] = time(sides[side], repeats[side]);
        }
        pairs.push(pair);
    }
    Figures { pairs }
}

/// The median of one side that is timed alone.
pub fn alone(run: &Run) -> f64 {
    let repeats = repeats(run);
    percentile((0..ROUNDS).map(|_| time(run, repeats)).collect(), 50)
}

impl Figures {
    pub fn median(&self, side: Side) -> f64 {
        percentile(self.pairs.iter().map(|pair| pair[side as usize]).collect(), 50)
    }

    /// A percentile of the rounds' ratios, library to Rust.
    pub fn ratio(&self, percent: usize) -> f64 {
        percentile(self.pairs.iter().map(|[library, rust]| library / rust).collect(), percent)
    }
}

/// How many runs fill a stretch.
fn repeats(run: &Run) -> u32 {
    let mut repeats = 1;
    while time(run, repeats) * f64::from(repeats) < STRETCH {
        repeats *= 2;
    }
    repeats
}

/// The nanoseconds of one run.
fn time(run: &Run, repeats: u32) -> f64 {
    let start = clock::nanoseconds();
    for _ in 0..repeats {
        run();
    }
    (clock::nanoseconds() - start) as f64 / f64::from(repeats)
}

fn percentile(mut values: Vec<f64>, percent: usize) -> f64 {
    values.sort_by(f64::total_cmp);
    values[(values.len() - 1) * percent / 100]
}

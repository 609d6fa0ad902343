//! Times the library and the Rust in one run on the same inputs.
//!
//! Prints two tables for docs/PERFORMANCE.md: each case as a ratio, and the library's cost against size.

mod cases;
mod clock;
mod measure;
mod random;

use measure::{Case, Side};
use std::env;

fn main() {
    let only = env::args().nth(1).unwrap_or_default();
    println!("| case | library | Rust | library / Rust | spread | goal |");
    println!("|---|---|---|---|---|---|");
    for case in cases::compared().iter().filter(|case| case.name.starts_with(&only)) {
        print_ratio(case);
    }
    println!();
    println!("| cost against size | in a run | ns each |");
    println!("|---|---|---|");
    for size in cases::sized().iter().filter(|size| size.name.starts_with(&only)) {
        let each = measure::alone(&size.library) / size.units as f64;
        println!("| {} | {} | {each:.2} |", size.name, size.units);
    }
}

fn print_ratio(case: &Case) {
    let figures = measure::measure(case);
    let each = |side: Side| format!("{:.1} ns", figures.median(side) / case.units as f64);
    let goal = match case.goal {
        Some(goal) if figures.ratio(50) <= goal => format!("{goal}, met"),
        Some(goal) => format!("{goal}, missed"),
        None => String::new(),
    };
    println!(
        "| {} | {} | {} | {:.3} | {:.3} to {:.3} | {goal} |",
        case.name,
        each(Side::Library),
        each(Side::Rust),
        figures.ratio(50),
        figures.ratio(10),
        figures.ratio(90),
    );
}

//! Prints requests with the Rust's answers, for tests/replay, which needs no Rust: `f32.floor c0200000 = c0400000`. The Rust tells no edge: a hit has
//! that of edge.rs. The figures with known results come first.

use crate::figures;
use crate::inputs::{Inputs, Kind};
use crate::options::Options;
use crate::pairs::{Pair, pairs};
use std::collections::HashSet;

pub fn run(options: &Options) -> Result<(), String> {
    let count = options.count.unwrap_or(100) as usize;
    for figure in figures::all()? {
        println!("{} = {}", figure.request, figure.answer);
    }
    for pair in pairs(&options.only)? {
        print(&pair, options.seed, count)?;
    }
    Ok(())
}

/// The special values first, then random inputs. No row comes twice.
fn print(pair: &Pair, seed: u64, count: usize) -> Result<(), String> {
    let mut inputs = Inputs::new(pair.row, seed);
    let mut printed = HashSet::new();
    for i in 0.. {
        if printed.len() == count {
            break;
        }
        let args = inputs.next_special(i);
        let request = pair.routine.request(args);
        let row = format!("{request} = {}", pair.rust_line(args)?);
        // Rows with long lists are left out: a short list shows the same. A merge has three lists.
        let longest = if pair.row.shape == [Kind::Files] { 600 } else { 300 };
        let fits = row.len() < longest || !pair.routine.has_list();
        if fits && printed.insert(request) {
            println!("{row}");
        }
    }
    Ok(())
}

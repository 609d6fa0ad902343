//! The run of the gate: the figures, random inputs for each routine, the places of refusals, strokes along margins, every exact root, the edges by
//! which lines come in, hatch lists written and read, merged, and reported on, and the tiles by brute force.

use crate::cover;
use crate::entries;
use crate::figures;
use crate::hatch;
use crate::inputs::Inputs;
use crate::margins;
use crate::merges;
use crate::options::Options;
use crate::pairs::pairs;
use crate::places;
use crate::saved;
use crate::squares;

pub fn run(options: &Options) -> Result<(), String> {
    println!(
        "{} figures with known results hold for the library and for the Rust",
        figures::check()?
    );
    let count = options.count.unwrap_or(1_000_000);
    let pairs = pairs(&options.only)?;
    for pair in &pairs {
        let mut inputs = Inputs::new(pair.row, options.seed);
        for _ in 0..count {
            pair.compare(inputs.next())?;
        }
        println!("{} {count} inputs, no difference", pair.row.name);
    }
    let total = pairs.len() as u64 * count;
    println!("{} routines, {total} inputs, no difference, seed {}", pairs.len(), options.seed);
    if options.only.is_empty() {
        places::run()?;
        margins::run(options.seed, count / 10)?;
        squares::run()?;
        entries::run(options.seed, count)?;
        saved::run(options.seed, count)?;
        merges::run(options.seed)?;
        hatch::run(options.seed, count)?;
        cover::run(options)?;
    }
    Ok(())
}

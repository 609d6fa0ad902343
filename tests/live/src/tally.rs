//! Counts the kinds of the Rust's answers to the random inputs. They are read by a person: inputs are good if each kind that a routine has comes
//! often.

use crate::figures;
use crate::inputs::Inputs;
use crate::options::Options;
use crate::pairs::pairs;
use std::collections::BTreeMap;

pub fn run(options: &Options) -> Result<(), String> {
    figures::check()?;
    for pair in pairs(&options.only)? {
        let mut inputs = Inputs::new(pair.row, options.seed);
        let mut kinds = BTreeMap::new();
        for _ in 0..options.count.unwrap_or(10_000) {
            let line = pair.rust_line(inputs.next())?;
            *kinds.entry(kind(line)).or_insert(0) += 1;
        }
        let kinds: Vec<_> = kinds.iter().map(|(kind, n)| format!("{kind} {n} times")).collect();
        println!("{}: {}", pair.row.name, kinds.join(", "));
    }
    Ok(())
}

/// Each refusal is a kind, and so are none, yes and no, answers with a NaN, and other numbers.
fn kind(line: String) -> String {
    match line.as_str() {
        "0" | "1" | "none" => line,
        _ if line.starts_with("refused") => line,
        _ if line.contains("nan") => "NaN".to_string(),
        _ => "numbers".to_string(),
    }
}

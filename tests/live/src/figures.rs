//! The figures with known results (tests/figures.txt), compared with the library's answers and with the Rust's.

use crate::ask::{self, Args};
use crate::inputs::{axes, mirror};
use crate::pairs::{Pair, pair};

const TABLE: &str = include_str!("../../figures.txt");

pub struct Figure {
    pub request: String,
    pub answer: String,
}

/// The table's rows, then the mirror images, in each axis, of its hatch lines, rays, faces, strokes and ink. No row comes twice.
pub fn all() -> Result<Vec<Figure>, String> {
    let lines = TABLE.lines().filter(|line| !line.starts_with('#'));
    let mut figures: Vec<_> = lines.map(figure).collect::<Result<_, _>>()?;
    for row in 0..figures.len() {
        for twin in twins(&figures[row])? {
            if figures.iter().all(|figure| figure.request != twin.request) {
                figures.push(twin);
            }
        }
    }
    Ok(figures)
}

fn figure(line: &str) -> Result<Figure, String> {
    let (request, answer) = line.split_once(" = ").ok_or(format!("{line}: not a row"))?;
    Ok(Figure { request: request.to_string(), answer: answer.to_string() })
}

fn twins(figure: &Figure) -> Result<Vec<Figure>, String> {
    let (pair, args) = parse(&figure.request)?;
    let mut twins = Vec::new();
    for axis in axes(pair.row.shape) {
        let mut twin = args.clone();
        mirror(pair.row.shape, axis, &mut twin.floats);
        let answer = match pair.row.name {
            // Lines and their box are mirrored: the parameters of their ends stay. The edge may be the opposite one, and is told anew.
            "aabb.line" | "aabb.lines" | "aabb.ray" | "aabb_3.line" | "aabb_3.ray" => {
                let answer = pair.rust_line(&twin)?;
                if edge_aside(&answer) != edge_aside(&figure.answer) {
                    return Err(format!("{}: a twin has {answer}", figure.request));
                }
                answer
            }
            "edge2.ink" => figure.answer.clone(),
            // A stroke is mirrored within its own bounding box, and its entries are others: they are taken from the Rust.
            "edge2.overlapping_pixels_dda" | "edge2.pixels_inside" | "edge2.pixels_bound" => {
                pair.rust_line(&twin)?
            }
            _ => continue,
        };
        twins.push(Figure { request: pair.routine.request(&twin), answer });
    }
    Ok(twins)
}

/// An answer without its edges: a hit's is the third word, and a face's is the fourth of each four after the count.
fn edge_aside(answer: &str) -> Vec<&str> {
    let words: Vec<_> = answer.split(' ').collect();
    let is_edge = |at: usize| if words.len() == 3 { at == 2 } else { at > 0 && at % 4 == 0 };
    (0..words.len()).filter(|at| !is_edge(*at)).map(|at| words[at]).collect()
}

/// How many figures there are, or the first that the Rust or the library answers otherwise.
pub fn check() -> Result<usize, String> {
    let figures = all()?;
    for Figure { request, answer } in &figures {
        let (pair, args) = parse(request)?;
        let rust = pair.rust_line(&args)?;
        let ours = pair.routine.show(&pair.routine.ask(&args));
        if rust != *answer || ours != *answer {
            return Err(format!(
                "{request}\n  figure:  {answer}\n  library: {ours}\n  Rust:    {rust}"
            ));
        }
    }
    Ok(figures.len())
}

/// The routine that a request is for, and its arguments.
fn parse(request: &str) -> Result<(Pair, Args), String> {
    let (routine, args) = ask::read(request).ok_or(format!("{request}: a bad request"))?;
    Ok((pair(routine)?, args))
}

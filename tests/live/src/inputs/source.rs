//! Where the floats of one input come from.

use super::floats;
use crate::random::Random;

#[derive(Clone, Copy)]
pub enum Source {
    /// A drawing: multiples of 1 / `parts` that are at most `most` of them away from 0.
    Grid { parts: f32, most: i64 },
    /// Floats of every class.
    Wild,
}

impl Source {
    pub fn random(random: &mut Random) -> Self {
        // An input on a grid is followed by its mirror images, so that in the plane half of all inputs are on one.
        if !random.one_in(4) {
            return Source::Wild;
        }
        let parts = random.pick(&[1, 2, 4, 10]);
        // On a small grid points often share a line, and edges touch.
        let size = random.pick(&[2, 10, 100]);
        Source::Grid { parts: parts as f32, most: size * parts }
    }

    pub fn is_grid(self) -> bool {
        matches!(self, Source::Grid { .. })
    }

    /// The next float after those already made.
    pub fn float(self, made: &[f32], random: &mut Random) -> f32 {
        match self {
            Source::Grid { parts, most } => match (random.below(16), made) {
                // In the plane, in line with the point before.
                (0 | 1, [.., x, _]) => *x,
                (2, _) => floats::neighbour(random.around_zero(most) as f32 / parts, random),
                _ => random.around_zero(most) as f32 / parts,
            },
            Source::Wild => match random.below(8) {
                0 | 1 if !made.is_empty() => random.pick(made),
                2 if !made.is_empty() => floats::neighbour(random.pick(made), random),
                3 if !made.is_empty() => -random.pick(made),
                _ => floats::any(random),
            },
        }
    }
}

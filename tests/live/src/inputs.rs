//! Random inputs for a routine, the same for the same seed.

mod edges;
mod file;
mod floats;
mod kinds;
mod make;
mod merge;
mod slabs;
mod source;
mod touch;
mod wholes;

pub use file::{damage, hatch_list};
pub use kinds::{Kind, axes, mirror};
pub use merge::{Record, others};
pub use slabs::{Slab, floats, slabs};

use crate::ask::Args;
use crate::judge::Row;
use crate::random::Random;
use source::Source;
use std::ops::Range;

pub struct Inputs {
    row: &'static Row,
    random: Random,
    args: Args,
    /// The axes in which the present input is still to be mirrored.
    axes: Range<usize>,
}

impl Inputs {
    pub fn new(row: &'static Row, seed: u64) -> Self {
        Inputs { row, random: Random::new(seed, row.name), args: Args::default(), axes: 0..0 }
    }

    /// The next input. A figure is followed by its mirror image in each axis: a rising line by a falling one.
    pub fn next(&mut self) -> &Args {
        loop {
            match self.axes.next() {
                None => self.make(),
                Some(axis) => {
                    // The image before is mirrored back first.
                    if axis > 0 {
                        self.mirror(axis - 1);
                    }
                    self.mirror(axis);
                }
            }
            if (self.row.domain)(&self.args) {
                return &self.args;
            }
        }
    }

    /// The next input. Of a routine that takes single floats alone, one of them is the special value of this number, while there is one.
    pub fn next_special(&mut self, number: usize) -> &Args {
        self.next();
        let free = self.row.shape.iter().all(|kind| *kind == Kind::Float);
        if let Some(special) = floats::SPECIALS.get(number).filter(|_| free) {
            // A value is followed by its negative: the same argument takes both.
            let at = number / 2 % self.args.floats.len();
            self.args.floats[at] = *special;
        }
        &self.args
    }

    fn make(&mut self) {
        self.args.floats.clear();
        self.args.wholes.clear();
        self.args.patterns.clear();
        self.args.bytes.iter_mut().for_each(Vec::clear);
        let source = Source::random(&mut self.random);
        for kind in self.row.shape {
            make::make(*kind, source, &mut self.random, &mut self.args);
        }
        if self.random.one_in(4) {
            touch::touch(self.row.shape, &mut self.args.floats, &mut self.random);
        }
        self.axes = if source.is_grid() { axes(self.row.shape) } else { 0..0 };
    }

    fn mirror(&mut self, axis: usize) {
        mirror(self.row.shape, axis, &mut self.args.floats);
    }
}

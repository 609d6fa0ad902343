//! All inputs of the routines of one float.
//!
//! Each loop is compiled for its own routine: a call through the tables of `ask` and `judge` would take longer than the routine.

use crate::answer::same_number;
use crate::ask::Args;
use crate::judge;
use crate::options::Options;
use crate::pairs::named;
use bagnoszyk::f32 as ours;
use num_traits::float::Float;
use std::thread;
use std::time::Instant;

/// A routine of one float, and the search for an input on which the library differs from what it is compared with.
type Search = (&'static str, fn() -> Option<f32>);

const SEARCHES: &[Search] = &[
    ("f32.abs", || difference(|x| same_number(ours::abs(x), Float::abs(x)))),
    ("f32.floor", || difference(|x| same_number(ours::floor(x), Float::floor(x)))),
    ("f32.ceil", || difference(|x| same_number(ours::ceil(x), Float::ceil(x)))),
    ("f32.sqrt", || difference(|x| same_number(ours::sqrt(x), Float::sqrt(x)))),
    ("f32.sqrt_digits", || difference(same_root)),
    ("f32.to_i32", || difference(|x| ours::to_i32(x) == x as i32)),
    ("f32.to_u32", || difference(|x| ours::to_u32(x) == x as u32)),
    ("f32.to_usize", || difference(|x| ours::to_usize(x) == x as usize)),
];

pub fn run(options: &Options) -> Result<(), String> {
    let searches: Vec<_> =
        SEARCHES.iter().filter(|(name, _)| name.starts_with(&options.only)).collect();
    if searches.is_empty() {
        return Err(format!("no routine of one float begins with {}", options.only));
    }
    for (name, search) in searches {
        let start = Instant::now();
        if let Some(x) = search() {
            let told = named(name)?.compare(&Args::of(x));
            return Err(told.expect_err("the tables call the same functions"));
        }
        let seconds = start.elapsed().as_secs_f64();
        println!("{name} {} inputs, no difference, {seconds:.1} s", 1u64 << 32);
    }
    Ok(())
}

/// Whether root and digits are those by integer square roots.
fn same_root(x: f32) -> bool {
    let (ours, (root, digits)) = (ours::sqrt_digits(x), judge::sqrt_digits(x));
    same_number(ours.root, root) && ours.digits == digits
}

/// An input on which the answers are not alike. The inputs are cut into 256 parts, which the threads
/// take in turn: inputs near one another take a like time, so single stretches would end far apart.
fn difference(alike: impl Fn(f32) -> bool + Sync) -> Option<f32> {
    let threads = thread::available_parallelism().map_or(1, |n| n.get());
    let alike = &alike;
    let search = move |thread: usize| {
        let mut parts = (0..256u32).skip(thread).step_by(threads);
        let inputs = |part: u32| (part << 24..=part << 24 | 0x00ff_ffff).map(f32::from_bits);
        parts.find_map(|part| inputs(part).find(|x| !alike(*x)))
    };
    thread::scope(|scope| {
        let searches: Vec<_> = (0..threads).map(|t| scope.spawn(move || search(t))).collect();
        searches.into_iter().find_map(|search| search.join().unwrap())
    })
}

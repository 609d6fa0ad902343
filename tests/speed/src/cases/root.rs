//! Square roots beside the processor's instruction; and with their digits, beside the instruction and a count of the digits.

use super::calls;
use crate::measure::Case;
use crate::random::Random;
use bagnoszyk::f32::{sqrt, sqrt_digits};

const ROOTS: usize = 3000;

/// The bits of the numbers above zero and below infinity begin at 1 and end here.
const INFINITY: u64 = 0x7f80_0000;

pub fn cases() -> Vec<Case> {
    let mut random = Random::new(1, "root");
    let bits = |random: &mut Random| f32::from_bits(1 + random.below(INFINITY - 1) as u32);
    let any: Vec<f32> = (0..ROOTS).map(|_| bits(&mut random)).collect();
    let mut squares = |largest: u64| -> Vec<f32> {
        let square = |k: u64| (k * k) as f32;
        (0..ROOTS).map(|_| square(1 + random.below(largest))).collect()
    };
    let (small, large) = (squares(30), squares(1000));
    vec![
        root("square root: any positive number", &any).goal(20.0),
        root("square root: squares of 1 to 30", &small).goal(10.0),
        root("square root: squares of 1 to 1,000", &large).goal(10.0),
        digits("square root with its digits: any positive number", any),
        digits("square root with its digits: squares of 1 to 30", small),
        digits("square root with its digits: squares of 1 to 1,000", large),
    ]
}

fn root(name: &str, numbers: &[f32]) -> Case {
    calls(name, numbers.to_vec(), |&x| sqrt(x), |&x| rust_abi::sqrt(x))
}

fn digits(name: &str, numbers: Vec<f32>) -> Case {
    calls(name, numbers, |&x| sqrt_digits(x), |&x| rust_abi::sqrt_digits(x))
}

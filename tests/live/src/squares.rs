//! Every f32 above zero that has an exact root, found by the odd part of that root: the library's root and digits, for it and the floats beside it.

use crate::answer::Answer;
use crate::ask::Args;
use crate::pairs::named;

/// The square of an odd number has at most 24 binary digits exactly if the number is below this: no exact root has more than 12 up to its last 1.
const ODD_PARTS_END: u32 = 1 << 12;

/// How many f32s above zero have an exact root.
const SQUARES: u32 = 262_143;

pub fn run() -> Result<(), String> {
    let pair = named("f32.sqrt_digits")?;
    let mut squares = 0;
    for (root, digits) in (1..ODD_PARTS_END).step_by(2).flat_map(exact_roots) {
        let square = root * root;
        let given = pair.routine.ask(&Args::of(square));
        if given != Answer::from((root, digits)) {
            return Err(format!(
                "√{square:e} is {root:e} with {digits} digits, and another answer is given"
            ));
        }
        for x in [square.next_down(), square, square.next_up()] {
            pair.compare(&Args::of(x))?;
        }
        squares += 1;
    }
    println!(
        "{squares} floats above zero have an exact root, and no other root or count is given for them"
    );
    if squares == SQUARES { Ok(()) } else { Err(format!("there are {SQUARES} of them")) }
}

/// The roots that are this odd number times a power of two and whose squares are f32s, each with its digits.
fn exact_roots(odd: u32) -> impl Iterator<Item = (f32, u32)> {
    let digits = odd.ilog2() + 1;
    // The smallest square is 2^-148, and every f32 is below 2^128.
    let roots = (-74..=63).map(move |power| odd as f32 * 2f32.powi(power));
    let exact = |root: &f32| f64::from(root * root) == f64::from(*root) * f64::from(*root);
    roots.filter(exact).map(move |root| (root, digits))
}

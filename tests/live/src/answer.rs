//! An answer, the library's or the Rust's. Answers compare equal if their numbers do, with zeros of either sign equal, and all NaNs equal.

/// A refusal; its place is 0 where it tells none. One of a merge tells a list too.
pub use hatch_list::{Refused, RefusedIn};

/// The most numbers that an answer has: the corners of a turned box of space.
pub const MOST_VALUES: usize = 24;

/// The status of an answer that is none.
const NONE: u32 = 255;

#[derive(Clone, Debug, Default, PartialEq)]
pub struct Answer {
    /// 0, 255 for none, or a refusal's number.
    pub status: u32,
    /// The place, if a refusal tells one, and else 0.
    pub place: u64,
    /// The list, 1 or 2, if a refusal tells one, and else 0.
    pub told_list: u64,
    count: usize,
    /// Floats by their bits, whole numbers as they are, negative ones in two's complement.
    values: [u64; MOST_VALUES],
    /// What was written to a lent list, floats by their bits, bytes as numbers; its count is the last number.
    pub list: Vec<u32>,
    /// The library broke a rule of its header (tests/ask/ask.h).
    pub damaged: bool,
}

impl Answer {
    /// An answer that has a status and nothing else.
    pub fn refused(status: u32) -> Self {
        Answer { status, ..Answer::default() }
    }

    /// A list whose count of entries, or of records, stands among the numbers.
    pub fn with_list<const N: usize>(numbers: [u64; N], list: Vec<u32>) -> Self {
        Answer { list, ..numbers.into() }
    }

    pub fn values(&self) -> [u64; MOST_VALUES] {
        self.values
    }

    pub fn push(&mut self, value: u64) {
        self.values[self.count] = value;
        self.count += 1;
    }

    pub fn push_float(&mut self, x: f32) {
        self.push(bits(x).into());
    }
}

/// The bits of a float, with one pattern for both zeros and one for all NaNs.
pub fn bits(x: f32) -> u32 {
    // Adding +0 turns -0 into +0 and changes no other number.
    if x.is_nan() { f32::NAN } else { x + 0.0 }.to_bits()
}

/// The same number: zeros of either sign are equal, and all NaNs are.
pub fn same_number(a: f32, b: f32) -> bool {
    a == b || (a.is_nan() && b.is_nan())
}

impl<const N: usize> From<[f32; N]> for Answer {
    fn from(floats: [f32; N]) -> Self {
        let mut answer = Answer::default();
        floats.into_iter().for_each(|x| answer.push_float(x));
        answer
    }
}

impl From<f32> for Answer {
    fn from(x: f32) -> Self {
        [x].into()
    }
}

impl From<(f32, u32)> for Answer {
    fn from((x, n): (f32, u32)) -> Self {
        let mut answer = Answer::from(x);
        answer.push(n.into());
        answer
    }
}

impl From<(f32, f32, u32)> for Answer {
    fn from((x, y, n): (f32, f32, u32)) -> Self {
        let mut answer = Answer::from([x, y]);
        answer.push(n.into());
        answer
    }
}

impl<const N: usize> From<[u64; N]> for Answer {
    fn from(numbers: [u64; N]) -> Self {
        let mut answer = Answer::default();
        numbers.into_iter().for_each(|n| answer.push(n));
        answer
    }
}

impl From<u64> for Answer {
    fn from(n: u64) -> Self {
        [n].into()
    }
}

impl From<u32> for Answer {
    fn from(n: u32) -> Self {
        u64::from(n).into()
    }
}

impl From<i32> for Answer {
    fn from(n: i32) -> Self {
        (i64::from(n) as u64).into()
    }
}

impl From<bool> for Answer {
    fn from(yes: bool) -> Self {
        u64::from(yes).into()
    }
}

impl From<Vec<u32>> for Answer {
    fn from(list: Vec<u32>) -> Self {
        Answer::with_list([list.len() as u64], list)
    }
}

impl From<Vec<u8>> for Answer {
    fn from(list: Vec<u8>) -> Self {
        list.into_iter().map(u32::from).collect::<Vec<_>>().into()
    }
}

impl From<Vec<f32>> for Answer {
    fn from(list: Vec<f32>) -> Self {
        list.into_iter().map(bits).collect::<Vec<_>>().into()
    }
}

impl<T: Into<Answer>> From<Option<T>> for Answer {
    fn from(answer: Option<T>) -> Self {
        answer.map_or(Answer::refused(NONE), T::into)
    }
}

impl<T: Into<Answer>> From<Result<T, Refused>> for Answer {
    fn from(answer: Result<T, Refused>) -> Self {
        let refused = |r: Refused| Answer { place: r.place as u64, ..Answer::refused(r.number) };
        answer.map_or_else(refused, T::into)
    }
}

impl<T: Into<Answer>> From<Result<T, RefusedIn>> for Answer {
    fn from(answer: Result<T, RefusedIn>) -> Self {
        let told_list = answer.as_ref().err().map_or(0, |told| told.list as u64);
        Answer { told_list, ..answer.map_err(|told| told.refused).into() }
    }
}

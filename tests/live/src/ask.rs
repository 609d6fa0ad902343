//! The library, called through the table of ./ask, by numbers. Only what is printed goes through text.

use crate::answer::{Answer, MOST_VALUES, bits};
use std::ffi::{CStr, CString, c_char, c_void};
use std::{ptr, slice};

/// The arguments of a request: its floats in their order, its whole numbers in theirs, rooms among them, the bits of floats of a list, and its
/// lists of bytes.
#[derive(Clone, Debug, Default)]
pub struct Args {
    pub floats: Vec<f32>,
    pub wholes: Vec<u64>,
    pub patterns: Vec<u32>,
    pub bytes: [Vec<u8>; MOST_BYTE_LISTS],
}

impl Args {
    /// A float alone.
    pub fn of(x: f32) -> Self {
        Args { floats: vec![x], ..Args::default() }
    }

    /// As the table takes them. They are only read.
    fn input(&self) -> c::Input {
        let mut wholes = [0; MOST_WHOLES];
        wholes[..self.wholes.len()].copy_from_slice(&self.wholes);
        let list =
            |bytes: &Vec<u8>| c::List { start: bytes.as_ptr().cast_mut(), length: bytes.len() };
        c::Input {
            floats: self.floats.as_ptr().cast_mut(),
            float_count: self.floats.len(),
            wholes,
            patterns: self.patterns.as_ptr().cast_mut(),
            pattern_count: self.patterns.len(),
            bytes: self.bytes.each_ref().map(list),
        }
    }

    /// The float at a place.
    pub fn f(&self, at: usize) -> f32 {
        self.floats[at]
    }

    /// The whole number at a place.
    pub fn u(&self, at: usize) -> u64 {
        self.wholes[at]
    }

    /// N floats from a place on.
    pub fn fs<const N: usize>(&self, at: usize) -> [f32; N] {
        std::array::from_fn(|i| self.floats[at + i])
    }
}

/// A row of the table: `struct routine` of tests/ask/routines.h.
#[repr(C)]
pub struct Routine {
    name: *const c_char,
    function: *const c_char,
    call: *const c_void,
    takes: *const c_char,
    lists: *const c_char,
    gives: *const c_char,
    fields: *const c_char,
    places: u32,
    tells_list: bool,
}

/// The most whole numbers that a request has, and the most lists of bytes.
const MOST_WHOLES: usize = 8;
const MOST_BYTE_LISTS: usize = 2;

/// What tests/ask/ask.h declares.
mod c {
    use super::*;

    #[repr(C)]
    #[derive(Clone, Copy)]
    pub union Value {
        pub float: f32,
        pub whole: u64,
    }

    #[repr(C)]
    pub struct Answer {
        pub status: u32,
        pub list: u64,
        pub place: u64,
        pub values: [Value; MOST_VALUES],
    }

    #[repr(C)]
    #[derive(Clone, Copy)]
    pub struct List {
        pub start: *mut u8,
        pub length: usize,
    }

    #[repr(C)]
    pub struct Input {
        pub floats: *mut f32,
        pub float_count: usize,
        pub wholes: [u64; MOST_WHOLES],
        pub patterns: *mut u32,
        pub pattern_count: usize,
        pub bytes: [List; MOST_BYTE_LISTS],
    }

    #[repr(C)]
    pub struct Reply {
        pub answer: Answer,
        pub list: *mut c_void,
        pub damaged: bool,
    }

    #[repr(C)]
    pub struct Request {
        pub routine: *const Routine,
        pub input: Input,
        pub reason: [c_char; 200],
    }

    unsafe extern "C" {
        pub static routines: Routine;
        pub static routine_count: usize;
        pub static ask_sizes: [usize; 4];
        pub fn ask(r: *const Routine, input: *const Input) -> Reply;
        pub fn entries_written(r: *const Routine, answer: *const Answer) -> usize;
        pub fn read_request(line: *mut c_char, request: *mut Request) -> bool;
        pub fn free_request(request: *mut Request);
        pub fn request_text(r: *const Routine, input: *const Input) -> *mut c_char;
        pub fn reply_text(r: *const Routine, reply: *const Reply, decimal: bool) -> *mut c_char;
        pub fn free(start: *mut c_void);
    }
}

/// The routines that have requests.
pub fn all() -> impl Iterator<Item = &'static Routine> {
    let sizes = [
        size_of::<Routine>(),
        size_of::<c::Input>(),
        size_of::<c::Reply>(),
        size_of::<c::Request>(),
    ];
    assert_eq!(sizes, unsafe { c::ask_sizes }, "the structs here and in tests/ask differ");
    let table = unsafe { slice::from_raw_parts(&raw const c::routines, c::routine_count) };
    table.iter().filter(|routine| !routine.name.is_null())
}

pub fn named(name: &str) -> Option<&'static Routine> {
    all().find(|routine| routine.name() == name)
}

/// The routine that a line asks for, and its arguments; nothing if it is a bad request.
pub fn read(line: &str) -> Option<(&'static Routine, Args)> {
    let line = CString::new(line).ok()?.into_raw();
    unsafe {
        let mut request: c::Request = std::mem::zeroed();
        let good = c::read_request(line, &mut request);
        drop(CString::from_raw(line));
        let input = &request.input;
        let args = good.then(|| Args {
            floats: slice::from_raw_parts(input.floats, input.float_count).to_vec(),
            wholes: input.wholes.to_vec(),
            patterns: slice::from_raw_parts(input.patterns, input.pattern_count).to_vec(),
            bytes: input.bytes.map(|list| slice::from_raw_parts(list.start, list.length).to_vec()),
        });
        c::free_request(&mut request);
        Some((request.routine.as_ref()?, args?))
    }
}

impl Routine {
    pub fn name(&self) -> &'static str {
        text(self.name)
    }

    /// A letter for each argument.
    pub fn takes(&self) -> &'static str {
        text(self.takes)
    }

    /// A letter for each number of an answer.
    fn gives(&self) -> &'static [u8] {
        unsafe { CStr::from_ptr(self.gives) }.to_bytes()
    }

    pub fn has_list(&self) -> bool {
        self.list().is_some()
    }

    /// The letter of the list that is lent to it.
    fn list(&self) -> Option<&u8> {
        unsafe { CStr::from_ptr(self.lists) }.to_bytes().first()
    }

    /// The first entries of that list: floats by their bits, with one pattern for both zeros and one for all NaNs.
    fn entries(&self, list: *const c_void, count: usize) -> Vec<u32> {
        if self.list() == Some(&b'b') {
            let bytes = unsafe { slice::from_raw_parts(list.cast::<u8>(), count) };
            return bytes.iter().map(|byte| (*byte).into()).collect();
        }
        let entries = unsafe { slice::from_raw_parts(list.cast::<u32>(), count) };
        match self.list() {
            Some(b'f') => entries.iter().map(|entry| bits(f32::from_bits(*entry))).collect(),
            _ => entries.to_vec(),
        }
    }

    /// The library's answer.
    pub fn ask(&self, args: &Args) -> Answer {
        let reply = unsafe { c::ask(self, &args.input()) };
        let told = &reply.answer;
        let mut answer = Answer::refused(told.status);
        answer.told_list = told.list;
        answer.place = told.place;
        answer.damaged = reply.damaged;
        if !reply.damaged && told.status == 0 {
            for (letter, value) in self.gives().iter().zip(&told.values) {
                match letter {
                    b'f' => answer.push_float(unsafe { value.float }),
                    _ => answer.push(unsafe { value.whole }),
                }
            }
            if !reply.list.is_null() {
                answer.list = self.entries(reply.list, unsafe { c::entries_written(self, told) });
            }
        }
        unsafe { c::free(reply.list) };
        answer
    }

    /// A request as a line.
    pub fn request(&self, args: &Args) -> String {
        owned(unsafe { c::request_text(self, &args.input()) })
    }

    /// An answer of this routine as a line.
    pub fn show(&self, answer: &Answer) -> String {
        let Answer { status, told_list, place, damaged, .. } = *answer;
        let values = answer.values().map(|whole| c::Value { whole });
        let bytes: Vec<u8> = answer.list.iter().map(|entry| *entry as u8).collect();
        let list = match self.list() {
            Some(b'b') => bytes.as_ptr().cast(),
            _ => answer.list.as_ptr().cast::<c_void>(),
        };
        let answer = c::Answer { status, list: told_list, place, values };
        let reply = c::Reply { answer, list: list.cast_mut(), damaged };
        owned(unsafe { c::reply_text(self, ptr::from_ref(&reply), false) })
    }
}

fn text(start: *const c_char) -> &'static str {
    unsafe { CStr::from_ptr(start) }.to_str().unwrap()
}

/// A text that was handed over to be freed.
fn owned(start: *mut c_char) -> String {
    let text = text(start).to_string();
    unsafe { c::free(start.cast()) };
    text
}

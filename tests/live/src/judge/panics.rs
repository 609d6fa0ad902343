//! Catches the panics of the Rust.

use std::cell::Cell;
use std::panic::{self, UnwindSafe};

thread_local! {
    static EXPECTED: Cell<bool> = const { Cell::new(false) };
}

/// Keeps the Rust's panics from being printed. Any other panic still is.
pub fn silence() {
    let print = panic::take_hook();
    panic::set_hook(Box::new(move |info| {
        if !EXPECTED.get() {
            print(info);
        }
    }));
}

/// What a call returns; nothing if it panics.
pub fn caught<T>(call: impl FnOnce() -> T + UnwindSafe) -> Option<T> {
    EXPECTED.set(true);
    let outcome = panic::catch_unwind(call);
    EXPECTED.set(false);
    outcome.ok()
}

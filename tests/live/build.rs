//! Links libask.a, which tests/ask/build writes: the library's functions behind one table.

use std::env;

/// The environment variable that names the folder of libask.a.
const FOLDER: &str = "BAGNOSZYK_ASK";

fn main() {
    println!("cargo::rerun-if-env-changed={FOLDER}");
    let Ok(folder) = env::var(FOLDER) else {
        panic!("set {FOLDER} to the folder of libask.a, as tests/compare does");
    };
    println!("cargo::rerun-if-changed={folder}/libask.a");
    println!("cargo::rustc-link-search=native={folder}");
    println!("cargo::rustc-link-lib=static=ask");
}

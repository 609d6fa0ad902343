//! Links libbagnoszyk.a, which ./install and tests/build-library write.

use std::path::Path;
use std::{env, process};

/// The environment variable that names the folder of libbagnoszyk.a.
const FOLDER: &str = "BAGNOSZYK_STATICLIB";
const ARCHIVE: &str = "libbagnoszyk.a";

fn main() {
    println!("cargo::rerun-if-env-changed={FOLDER}");
    let Ok(folder) = env::var(FOLDER) else {
        missing(&format!("{FOLDER} is not set"));
    };
    let archive = Path::new(&folder).join(ARCHIVE);
    println!("cargo::rerun-if-changed={}", archive.display());
    if !archive.is_file() {
        missing(&format!("{FOLDER} names {folder}, which has no {ARCHIVE}"));
    }
    println!("cargo::rustc-link-search=native={folder}");
    println!("cargo::rustc-link-lib=static=bagnoszyk");
}

fn missing(what: &str) -> ! {
    println!(
        "cargo::error={what}: run ./install PREFIX, and set {FOLDER} to the whole path of PREFIX/lib"
    );
    process::exit(1);
}

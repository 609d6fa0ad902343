//! Writes the list of modules. Each is the Rust's own file, in the folder that DEL_GEO_CORE names.

use std::{env, fs, path::Path};

/// The environment variable that names the folder of the Rust's source files.
const FOLDER: &str = "DEL_GEO_CORE";

/// The files that the library is compared with, and those that they name.
const MODULES: [&str; 11] = [
    "aabb",
    "aabb2",
    "aabb3",
    "edge2",
    "mat3_col_major",
    "obb2",
    "obb3",
    "range",
    "tri2",
    "vec2",
    "vec3",
];

fn main() {
    println!("cargo::rerun-if-env-changed={FOLDER}");
    let Ok(folder) = env::var(FOLDER) else {
        panic!("set {FOLDER} to the folder of del-geo-core's source files, as tests/compare does");
    };
    let module = |name| format!("#[path = \"{folder}/{name}.rs\"]\npub mod {name};\n");
    let list = Path::new(&env::var("OUT_DIR").unwrap()).join("modules.rs");
    fs::write(list, MODULES.map(module).concat()).unwrap();
}

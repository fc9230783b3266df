//! The numbers that `ridgeoven.h` defines, for build scripts: each is said there alone.

use std::path::Path;
use std::{env, fs};

/// Writes `header.rs` for the crate that is built: `pub const NAME: usize = N;` for each `#define RIDGEOVEN_NAME N`.
pub fn write_constants(header: &Path) {
    println!("cargo:rerun-if-changed={}", header.display());
    let text = fs::read_to_string(header).expect("the header is beside the crate");
    let number = |line: &str| {
        let (name, n) = line.strip_prefix("#define RIDGEOVEN_")?.split_once(' ')?;
        Some(format!("pub const {name}: usize = {};\n", n.parse::<usize>().expect("a plain number")))
    };
    let out = Path::new(&env::var_os("OUT_DIR").expect("cargo sets it")).join("header.rs");
    fs::write(out, text.lines().filter_map(number).collect::<String>()).expect("the constants can be written");
}

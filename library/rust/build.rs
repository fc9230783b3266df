//! Links what `library/build` writes, from `target/staticlib` or the folder that `RIDGEOVEN_LIB` names, and takes the header's numbers over.

mod header;

use std::env;
use std::path::PathBuf;

fn main() {
    println!("cargo:rerun-if-env-changed=RIDGEOVEN_LIB");
    let here = PathBuf::from(env::var_os("CARGO_MANIFEST_DIR").expect("cargo sets it"));
    header::write_constants(&here.join("../ridgeoven.h"));
    let folder = env::var_os("RIDGEOVEN_LIB").map_or_else(|| here.join("../../target/staticlib"), PathBuf::from);
    println!("cargo:rustc-link-search=native={}", folder.display());
    println!("cargo:rustc-env=RIDGEOVEN_FOLDER={}", folder.display());
    for name in ["ffi_clean", "ffi_run", "ffi_refs", "ffi_archive", "ffi_cover", "ffi_links", "ffi_links_ask", "ffi_links_store", "ffi_links_build", "cover_links"] {
        println!("cargo:rerun-if-changed={}", folder.join(format!("lib{name}.a")).display());
        println!("cargo:rustc-link-lib=static={name}");
    }
}

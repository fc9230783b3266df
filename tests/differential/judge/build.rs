//! With the feature `port`: links what `library/build` writes of the proved library, and takes the header's numbers over.

#[path = "../../../library/rust/header.rs"]
mod header;

use std::env;
use std::path::PathBuf;

fn main() {
    println!("cargo:rerun-if-env-changed=RIDGEOVEN_LIB");
    let house = PathBuf::from(env::var_os("CARGO_MANIFEST_DIR").expect("cargo sets it")).join("../../..");
    if env::var_os("CARGO_FEATURE_PORT").is_some() {
        header::write_constants(&house.join("library/ridgeoven.h"));
        let folder = env::var_os("RIDGEOVEN_LIB").map_or_else(|| house.join("target/staticlib"), PathBuf::from);
        println!("cargo:rustc-link-search=native={}", folder.display());
        for name in ["ffi_columns", "ffi_build", "ffi_refs", "ffi_cover", "ffi_links", "ffi_links_ask", "ffi_links_store", "ffi_links_build", "cover_links", "ffi_archive", "ffi_clean", "ffi_run"] {
            println!("cargo:rerun-if-changed={}", folder.join(format!("lib{name}.a")).display());
            println!("cargo:rustc-link-lib=static={name}");
        }
    }
}

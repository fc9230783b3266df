//! Writes, for each folder of the original, the modules that stand there with the paths of their files.
//! The files are read where they are and never copied.

use std::path::{Path, PathBuf};
use std::{env, fs};

/// Folder in the original, and the modules taken from it.
const MODULES: [(&str, &[&str]); 5] = [
    ("", &["error"]),
    ("events", &["relationships"]),
    ("file", &["bytes", "error"]),
    ("layout", &["api", "constant", "graph"]),
    ("writer", &["graph", "graph_renumber"]),
];

fn source() -> PathBuf {
    println!("cargo:rerun-if-env-changed=OPEN_EVENT_SRC");
    let folder = env::var_os("OPEN_EVENT_SRC").map(PathBuf::from).unwrap_or_else(|| {
        let here = PathBuf::from(env::var_os("CARGO_MANIFEST_DIR").expect("cargo sets it"));
        here.join("../../../../shared/docs/src")
    });
    folder
        .canonicalize()
        .unwrap_or_else(|error| panic!("the original is not at {}: {error}; set OPEN_EVENT_SRC", folder.display()))
}

fn modules(source: &Path, folder: &str, names: &[&str]) -> String {
    let mut text = String::new();
    for name in names {
        let path = source.join("src").join(folder).join(format!("{name}.rs"));
        assert!(path.is_file(), "the original has no {}", path.display());
        println!("cargo:rerun-if-changed={}", path.display());
        text += &format!("#[path = {:?}]\npub mod {name};\n", path.display().to_string());
    }
    text
}

fn main() {
    let source = source();
    let out = PathBuf::from(env::var_os("OUT_DIR").expect("cargo sets it"));
    for (folder, names) in MODULES {
        let file = out.join(if folder.is_empty() { "root.rs".into() } else { format!("{folder}.rs") });
        fs::write(file, modules(&source, folder, names)).expect("the build folder can be written");
    }
}

//! The records of the boundary have the sizes that C and the compiled library have.

use crate::Link;
use crate::boundary::{Answer, Number, Run, Step};
use crate::links::Covered;
use crate::refs::Resolved;
use std::path::Path;
use std::process::Command;

/// Builds and runs `library/tests/sizes.c`, which holds the header's run to the library's and says every size of the header's.
#[test]
fn as_in_c() {
    let library = Path::new(env!("CARGO_MANIFEST_DIR")).join("..");
    let program = Path::new(env!("OUT_DIR")).join("sizes");
    let built = Command::new("cc")
        .args(["-std=c11", "-O1", "-Wall", "-Wextra", "-Werror", "-I"])
        .arg(&library)
        .arg(library.join("tests/sizes.c"))
        .arg(Path::new(env!("RIDGEOVEN_FOLDER")).join("libffi_run.a"))
        .arg("-o")
        .arg(&program)
        .status()
        .expect("there is a C compiler");
    assert!(built.success());
    let said = Command::new(&program).output().expect("the program runs");
    assert!(said.status.success(), "{}", String::from_utf8_lossy(&said.stderr));
    let sizes = [
        ("run", size_of::<Run>()),
        ("step", size_of::<Step>()),
        ("answer", size_of::<Answer>()),
        ("number", size_of::<Number>()),
        ("link", size_of::<Link>()),
        ("covered", size_of::<Covered>()),
        ("resolved", size_of::<Resolved>()),
    ];
    let lines: String = sizes.iter().map(|(name, size)| format!("{name} {size}\n")).collect();
    assert_eq!(String::from_utf8_lossy(&said.stdout), lines);
}

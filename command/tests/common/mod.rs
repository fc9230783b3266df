//! Runs the command, and keeps the files that the tests of all commands share.
#![allow(dead_code)] // each test file uses some of it

use std::ffi::OsStr;
use std::fs;
use std::io::{self, Write};
use std::ops::Deref;
use std::path::{Path, PathBuf};
use std::process::{Command, Output, Stdio};

/// Document 01's worked archive, and what it is cleaned to.
pub const WORKED: &[u8] = include_bytes!("../../../crates/clean/stdin");
pub const CLEANED: &[u8] = include_bytes!("../../../crates/clean/stdout");
pub const LISTING: &str = include_str!("../../../crates/listing/stdout");

pub const BROKEN: &str = "refused 23: a record of the archive is broken: its length, version, kind, order, or something that it holds\n";

/// What a run of the command came to.
#[derive(Debug, PartialEq)]
pub struct Ran {
    pub status: i32,
    pub out: Vec<u8>,
    pub told: String,
}

impl Ran {
    pub fn of(output: Output) -> Self {
        let status = output.status.code().expect("it ends by itself");
        Self { status, out: output.stdout, told: String::from_utf8(output.stderr).expect("what is told is text") }
    }

    pub fn text(&self) -> &str {
        str::from_utf8(&self.out).expect("the output is text")
    }

    /// Nothing is printed, one line is told, and it has these words.
    #[track_caller]
    pub fn fails(&self, status: i32, words: &str) {
        assert_eq!(self.status, status, "{}", self.told);
        assert_eq!(self.out, b"");
        assert_eq!(self.told.matches('\n').count(), 1, "{}", self.told);
        assert!(self.told.contains(words), "{}", self.told);
    }

    /// This is printed, and nothing told.
    #[track_caller]
    pub fn prints(&self, out: impl AsRef<[u8]>) {
        assert_eq!((self.status, self.told.as_str()), (0, ""));
        assert_eq!(String::from_utf8_lossy(&self.out), String::from_utf8_lossy(out.as_ref()));
    }
}

/// The command with these words behind it, standard input empty.
pub fn command<S: AsRef<OsStr>>(words: impl IntoIterator<Item = S>) -> Command {
    let mut command = Command::new(env!("CARGO_BIN_EXE_ridgeoven"));
    command.args(words).stdin(Stdio::null()).stdout(Stdio::piped()).stderr(Stdio::piped());
    command
}

pub fn ran<S: AsRef<OsStr>>(words: impl IntoIterator<Item = S>) -> Ran {
    Ran::of(command(words).output().expect("the command runs"))
}

/// With these parts as standard input, a pause before each but the first.
pub fn ran_with<S: AsRef<OsStr>>(words: impl IntoIterator<Item = S>, parts: &[&[u8]]) -> Ran {
    let mut child = command(words).stdin(Stdio::piped()).spawn().expect("the command runs");
    let mut input = child.stdin.take().expect("a pipe");
    for (at, part) in parts.iter().enumerate() {
        std::thread::sleep(std::time::Duration::from_millis(if at == 0 { 0 } else { 300 }));
        input.write_all(part).expect("it reads");
    }
    drop(input);
    Ran::of(child.wait_with_output().expect("it ends"))
}

/// Says that something is not tested here. What a test prints is kept back if it passes, but not what it writes to standard error itself.
pub fn skipped(words: &str) {
    let _ = writeln!(io::stderr(), "skipped: {words}");
}

/// A folder of a test's own, which goes with this value: `rt ci` stops at a link that is left anywhere below the repository.
pub struct Folder(PathBuf);

/// Such a folder, empty at first.
pub fn folder(name: &str) -> Folder {
    let folder = Path::new(env!("CARGO_TARGET_TMPDIR")).join(name);
    let _ = fs::remove_dir_all(&folder); // of a run that was stopped, if there was one
    fs::create_dir_all(&folder).expect("the folder is made");
    Folder(folder)
}

impl Deref for Folder {
    type Target = Path;

    fn deref(&self) -> &Path {
        &self.0
    }
}

impl AsRef<Path> for Folder {
    fn as_ref(&self) -> &Path {
        self
    }
}

impl Drop for Folder {
    fn drop(&mut self) {
        let _ = fs::remove_dir_all(&self.0);
    }
}

/// A file of a folder with these bytes.
pub fn file(folder: &Path, name: impl AsRef<OsStr>, bytes: &[u8]) -> PathBuf {
    let path = folder.join(name.as_ref());
    fs::write(&path, bytes).expect("the file is written");
    path
}

/// The names in a folder.
pub fn names(folder: &Path) -> Vec<String> {
    let entry = |entry: io::Result<fs::DirEntry>| entry.expect("an entry").file_name().to_string_lossy().into_owned();
    let mut names: Vec<_> = fs::read_dir(folder).expect("the folder is there").map(entry).collect();
    names.sort();
    names
}

/// A file or folder of the repository.
pub fn repository(path: &str) -> PathBuf {
    Path::new(env!("CARGO_MANIFEST_DIR")).join("..").join(path)
}

/// The worked archive with files behind it that have no events.
pub fn with_empty_files(count: usize) -> Vec<u8> {
    let record = |kind: u8, body: &[u8]| [&(body.len() as u32 + 2).to_be_bytes(), &[1, kind][..], body].concat();
    let head = [&104u64.to_be_bytes()[..], &[0; 4], &[0, 4], b"room", &[0; 17]].concat();
    let file = [record(1, &head), record(2, &[0; 36]), record(3, &[]), record(4, &[0; 4]), record(5, &[0; 4])].concat();
    [WORKED.to_vec(), file.repeat(count)].concat()
}

//! What is written: standard output to its end, and files whole or not at all.

use crate::ending::Failure;
use std::fs::{self, File, Metadata, OpenOptions};
use std::io::{self, ErrorKind, Write};
use std::os::unix::fs::{MetadataExt, fchown};
use std::path::{Path, PathBuf};
use std::process;

/// Writes all of the bytes to standard output.
pub fn print(bytes: impl AsRef<[u8]>) -> Result<(), Failure> {
    let mut out = io::stdout().lock();
    out.write_all(bytes.as_ref()).and_then(|()| out.flush()).map_err(|error| Failure::Unwritten("standard output".into(), error))
}

/// Writes a file, whole or not at all: its bytes go to a new file beside it that is flushed and then given its name. A file that was there
/// stays until then, and hands on its owner and permissions. A device or a pipe can't be replaced, and is written as it stands.
pub fn write_whole(path: &Path, bytes: &[u8]) -> io::Result<()> {
    let there = match fs::metadata(path) {
        Ok(there) => Some(there),
        Err(error) if error.kind() == ErrorKind::NotFound => None,
        Err(error) => return Err(error),
    };
    match there {
        Some(there) if !there.is_dir() && !there.is_file() => OpenOptions::new().write(true).open(path)?.write_all(bytes),
        Some(there) if there.is_file() => replace(&fs::canonicalize(path)?, bytes, Some(&there)),
        Some(_) => Err(ErrorKind::IsADirectory.into()),
        None => replace(path, bytes, None),
    }
}

fn replace(path: &Path, bytes: &[u8], there: Option<&Metadata>) -> io::Result<()> {
    let folder = path.parent().filter(|folder| !folder.as_os_str().is_empty()).unwrap_or(Path::new("."));
    // The folder is opened first: once the new file has the name, nothing but a flush is left that could fail.
    let opened = File::open(folder)?;
    let (beside, file) = create_in(folder)?;
    let written = fill(file, bytes, there).and_then(|()| fs::rename(&beside, path));
    if written.is_err() {
        // The first error is the one to tell.
        let _ = fs::remove_file(&beside);
    }
    written.and_then(|()| opened.sync_all())
}

/// A new file in a folder, under a name that no file has.
fn create_in(folder: &Path) -> io::Result<(PathBuf, File)> {
    let mut attempt = 0;
    loop {
        let path = folder.join(format!(".ridgeoven-{}-{attempt}", process::id()));
        match OpenOptions::new().write(true).create_new(true).open(&path) {
            Err(error) if error.kind() == ErrorKind::AlreadyExists => attempt += 1,
            made => return made.map(|file| (path, file)),
        }
    }
}

/// Nobody may read the bytes who could not read the file that they replace, so owner and permissions go first.
fn fill(mut file: File, bytes: &[u8], there: Option<&Metadata>) -> io::Result<()> {
    if let Some(there) = there {
        let new = file.metadata()?;
        if (new.uid(), new.gid()) != (there.uid(), there.gid()) {
            fchown(&file, Some(there.uid()), Some(there.gid()))?;
        }
        file.set_permissions(there.permissions())?;
    }
    file.write_all(bytes)?;
    file.sync_all()
}

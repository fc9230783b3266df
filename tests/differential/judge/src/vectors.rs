//! Archives with known answers in a folder: NAME.archive, NAME.listing and, where the archive is accepted, NAME.cleaned.

use crate::cleaning;
use std::fs;
use std::io;
use std::path::{Path, PathBuf};

fn archives(folder: &Path) -> io::Result<Vec<PathBuf>> {
    let mut found: Vec<PathBuf> = fs::read_dir(folder)?.map(|entry| Ok(entry?.path())).collect::<io::Result<_>>()?;
    found.retain(|path| path.extension().is_some_and(|ending| ending == "archive"));
    found.sort();
    Ok(found)
}

/// How many agree, and the names of those that do not.
pub fn compare(folder: &Path) -> io::Result<(usize, Vec<String>)> {
    let mut agree = 0;
    let mut differ = Vec::new();
    for path in archives(folder)? {
        let archive = fs::read(&path)?;
        let (listing, cleaned) = cleaning::answers(&archive);
        let kept = path.with_extension("cleaned");
        let kept = if kept.exists() { Some(fs::read(kept)?) } else { None };
        if listing.as_bytes() == fs::read(path.with_extension("listing"))? && cleaned == kept && port_agrees(&archive) {
            agree += 1;
        } else {
            differ.push(path.file_name().expect("a file").to_string_lossy().into_owned());
        }
    }
    Ok((agree, differ))
}

#[cfg(not(feature = "port"))]
fn port_agrees(_archive: &[u8]) -> bool {
    true
}

#[cfg(feature = "port")]
fn port_agrees(archive: &[u8]) -> bool {
    crate::port::archives::differs(archive).is_none() && crate::port::runs::differs(archive).is_none()
}

/// An archive with the original's answers, as a new entry of a folder.
pub fn keep(folder: &Path, name: &str, archive: &[u8]) -> io::Result<()> {
    let (listing, cleaned) = cleaning::answers(archive);
    fs::write(folder.join(format!("{name}.archive")), archive)?;
    fs::write(folder.join(format!("{name}.listing")), listing)?;
    match cleaned {
        Some(bytes) => fs::write(folder.join(format!("{name}.cleaned")), bytes),
        None => Ok(()),
    }
}

//! The archives that paths lead to.

use std::ffi::{OsStr, OsString};
use std::fs;
use std::io;
use std::path::{Path, PathBuf};

pub enum Found {
    File(OsString),
    /// A folder that cannot be searched, or a link in it that leads nowhere.
    Unread(OsString, io::Error),
}

pub struct Search {
    pub found: Vec<Found>,
    /// How many things in folders are no files that are named as archives.
    pub passed_over: usize,
    has_every_file: bool,
}

impl Search {
    /// What is named is found as it is, whatever kind of file it is and also where it is missing; folders are searched in order of names.
    pub fn of(paths: &[OsString], has_every_file: bool) -> Self {
        let mut search = Self { found: Vec::new(), passed_over: 0, has_every_file };
        for path in paths {
            if path != "-" && Path::new(path).is_dir() {
                search.folder(Path::new(path));
            } else {
                search.found.push(Found::File(path.clone()));
            }
        }
        search
    }

    fn folder(&mut self, path: &Path) {
        match entries(path) {
            Ok(entries) => entries.iter().for_each(|entry| self.entry(entry)),
            Err(error) => self.found.push(Found::Unread(path.into(), error)),
        }
    }

    /// A link to a file is a file; one to a folder may lead round in a circle, and is passed over. So are devices and pipes, which may never end.
    fn entry(&mut self, path: &Path) {
        let is_wanted = self.has_every_file || path.extension() == Some(OsStr::new("archive"));
        match fs::metadata(path) {
            Ok(entry) if entry.is_dir() && !path.is_symlink() => self.folder(path),
            Ok(entry) if entry.is_file() && is_wanted => self.found.push(Found::File(path.into())),
            Err(error) if is_wanted => self.found.push(Found::Unread(path.into(), error)),
            _ => self.passed_over += 1,
        }
    }
}

fn entries(folder: &Path) -> io::Result<Vec<PathBuf>> {
    let mut entries = fs::read_dir(folder)?.map(|entry| Ok(entry?.path())).collect::<io::Result<Vec<_>>>()?;
    entries.sort();
    Ok(entries)
}

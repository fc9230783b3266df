//! An archive before and after its cleaning, for people to look at.

use crate::archive::{self, File};
use crate::ending::Failure;
use ridgeoven::{Refusal, Run};
use std::collections::HashMap;
use std::io::{self, ErrorKind};

pub struct Cleaning {
    pub before: Vec<File>,
    pub after: Vec<File>,
    /// The cleaned archive.
    pub bytes: Vec<u8>,
    /// The new number of each survivor, by its old one.
    pub new_sns: HashMap<u64, u64>,
    /// How many survivors name an erased parent.
    pub reparented: usize,
}

impl Cleaning {
    /// Cleans the archive of this name. The library goes first, so that nothing is shown of what it refuses.
    pub fn of(name: &str, archive: &[u8]) -> Result<Self, Failure> {
        let refused = |refusal| Failure::Refused(name.into(), refusal);
        let mut run = Run::new();
        run.take(archive).map_err(refused)?;
        run.resolve().map_err(refused)?;
        let bytes = run.write_to_vec().map_err(refused)?;
        let (before, after) = (files(name, archive)?, files(name, &bytes)?);
        let new_sns = new_sns(&run, &before).map_err(refused)?;
        let reparented = run.reparented().map_err(refused)?;
        Ok(Self { before, after, bytes, new_sns, reparented })
    }
}

/// How many files and events an archive has, and how many of these are gone and left after its cleaning.
pub struct Counts {
    pub files: usize,
    pub events: usize,
    pub erased: usize,
    pub survivors: usize,
}

impl Counts {
    pub fn of(before: &[File], after: &[File]) -> Self {
        let (events, survivors) = (archive::events(before).count(), archive::events(after).count());
        Self { files: before.len(), events, erased: events - survivors, survivors }
    }
}

/// The files of an archive that the library accepted.
pub fn files(name: &str, archive: &[u8]) -> Result<Vec<File>, Failure> {
    let unknown = || io::Error::new(ErrorKind::InvalidData, "it holds a record that this command does not know");
    archive::read(archive).ok_or_else(|| Failure::Unread(name.into(), unknown()))
}

fn new_sns(run: &Run, before: &[File]) -> Result<HashMap<u64, u64>, Refusal> {
    let mut new_sns = HashMap::new();
    for event in archive::events(before) {
        if let Some(new_sn) = run.new_number(event.sn)? {
            new_sns.insert(event.sn, new_sn);
        }
    }
    Ok(new_sns)
}

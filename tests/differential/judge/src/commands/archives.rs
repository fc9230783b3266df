//! Commands over archives.

use super::Done;
use crate::options::Options;
use crate::random::Random;
use crate::shapes::Size;
use crate::{checks, cleaning, inputs, read, refusals, shrink, vectors};
use std::collections::BTreeMap;
use std::path::Path;
use std::{fs, io};

/// Events of a short archive.
const EVENTS: usize = 3;

pub fn vectors(folder: &str) -> Done {
    let (agree, differ) = vectors::compare(Path::new(folder)).map_err(|error| format!("{folder}: {error}"))?;
    for name in &differ {
        println!("{name}: the original answers otherwise");
    }
    println!("vectors: {agree} agree, {} differ; {} refusals told apart", differ.len(), refusals::count());
    Ok(differ.is_empty() && agree > 0)
}

/// Checks one archive; what fails is made smaller and shown.
fn passes(bytes: &[u8], origin: &str) -> bool {
    let Some((name, wrong)) = checks::first_failure(bytes) else { return true };
    let small = shrink::smallest(bytes, &|one| checks::first_failure(one).is_some_and(|(other, _)| other == name));
    println!("{origin}: {name}: {wrong}");
    println!("smallest found, {} bytes: {}", small.len(), hexadecimal(&small));
    println!("{:#?}", read::archive(&small));
    print!("the original: {}", cleaning::answers(&small).0);
    false
}

fn hexadecimal(bytes: &[u8]) -> String {
    bytes.iter().map(|byte| format!("{byte:02x}")).collect()
}

/// How often each answer came.
fn tally(counts: &mut BTreeMap<u8, usize>, bytes: &[u8]) {
    *counts.entry(cleaning::clean(bytes).map_or_else(|number| number, |_| 0)).or_default() += 1;
}

fn summary(what: &str, counts: &BTreeMap<u8, usize>) {
    let total: usize = counts.values().sum();
    let accepted = counts.get(&0).unwrap_or(&0);
    let refused = counts.iter().filter(|(number, _)| **number > 0);
    let refused: Vec<String> = refused.map(|(number, count)| format!("{number}: {count}")).collect();
    println!("{what}: {total} pass, {accepted} of them accepted; refused {}", refused.join(", "));
}

pub fn archives(options: &Options) -> Done {
    let mut counts = BTreeMap::new();
    let size = options.size()?;
    for seed in options.seeds(10_000)? {
        let size = size.unwrap_or_else(|| Size::by(seed));
        let bytes = inputs::archive(seed, size).bytes;
        if !passes(&bytes, &format!("seed {seed}, size {size:?}")) {
            return Ok(false);
        }
        tally(&mut counts, &bytes);
    }
    summary("archives", &counts);
    Ok(true)
}

pub fn short(options: &Options) -> Done {
    let mut counts = BTreeMap::new();
    let events = options.number("events", EVENTS as u64)? as usize;
    for number in 0..inputs::shorts(events) {
        let bytes = inputs::short(events, number);
        if !passes(&bytes, &format!("short archive {number}")) {
            return Ok(false);
        }
        tally(&mut counts, &bytes);
    }
    summary("short archives", &counts);
    Ok(true)
}

pub fn keep(folder: &str, options: &Options) -> Done {
    let size = options.size()?.unwrap_or(Size::Small);
    let most = options.number("bytes", 1200)? as usize;
    fs::create_dir_all(folder).map_err(|error| format!("{folder}: {error}"))?;
    let mut kept = 0;
    for seed in options.seeds(40)? {
        let short = options.word("short").is_some();
        let bytes = if short {
            inputs::short(EVENTS, Random::new(seed).below(inputs::shorts(EVENTS)))
        } else {
            inputs::archive(seed, size).bytes
        };
        if bytes.len() <= most {
            vectors::keep(Path::new(folder), &format!("seed-{seed:06}"), &bytes).map_err(|error| format!("{folder}: {error}"))?;
            kept += 1;
        }
    }
    println!("kept {kept} archives with the original's answers in {folder}");
    Ok(kept > 0)
}

pub fn answer() -> Done {
    let mut bytes = Vec::new();
    io::Read::read_to_end(&mut io::stdin(), &mut bytes).map_err(|error| error.to_string())?;
    print!("{}", cleaning::answers(&bytes).0);
    Ok(true)
}

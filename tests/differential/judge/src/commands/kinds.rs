//! Whether every kind of input is made: a generator that never makes a case would be silent.

use super::Done;
use crate::inputs;
use crate::options::Options;
use crate::questions;
use crate::random::Random;
use crate::shapes::Size;
use std::collections::BTreeMap;

/// Every kind, which an input may have, and how many inputs have it.
fn counted(all: impl IntoIterator<Item = String>, made: impl Iterator<Item = String>) -> BTreeMap<String, usize> {
    let mut counts: BTreeMap<String, usize> = all.into_iter().map(|kind| (kind, 0)).collect();
    made.for_each(|kind| *counts.entry(kind).or_default() += 1);
    counts
}

pub fn kinds(options: &Options) -> Done {
    let seeds: Vec<u64> = options.seeds(20_000)?.collect();
    let changed = seeds.iter().flat_map(|seed| inputs::archive(*seed, Size::by(*seed)).kinds);
    let mut counts = counted(inputs::kinds().into_iter().map(String::from), changed.map(String::from));
    for question in &questions::ALL {
        let kind = |number: u8| format!("{} refused {number}", question.name);
        let answers = seeds.iter().filter_map(|seed| (question.ask)(&(question.make)(&mut Random::new(*seed))));
        counts.extend(counted(question.refusals.iter().map(|number| kind(*number)), answers.filter_map(Result::err).map(kind)));
    }
    let never: Vec<&str> = counts.iter().filter(|(_, count)| **count == 0).map(|(kind, _)| kind.as_str()).collect();
    let (rarest, least) = counts.iter().min_by_key(|(_, count)| **count).expect("some kinds");
    println!(
        "kinds: {} of {} made by {} seeds, the rarest, {rarest}, {least} times",
        counts.len() - never.len(),
        counts.len(),
        seeds.len()
    );
    never.iter().for_each(|kind| println!("never made: {kind}"));
    Ok(never.is_empty())
}

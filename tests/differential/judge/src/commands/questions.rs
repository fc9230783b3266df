//! Commands over questions and their cases.

use super::Done;
use crate::cases::{self, Part};
use crate::options::Options;
#[cfg(feature = "port")]
use crate::port;
use crate::questions::{self, Question};
use crate::random::Random;
use std::collections::BTreeMap;
use std::io::{self, BufWriter, Write};

/// The questions asked for: one by name, or all.
fn chosen(options: &Options) -> Result<Vec<&'static Question>, String> {
    match options.word("question") {
        None => Ok(questions::ALL.iter().collect()),
        Some(name) => Ok(vec![questions::named(name).ok_or(format!("no question {name}"))?]),
    }
}

/// A question, its input, and where the input comes from.
type Input = (&'static Question, Vec<Part>, String);

/// The inputs to ask: all short ones, or random ones.
fn asked(options: &Options) -> Result<Box<dyn Iterator<Item = Input>>, String> {
    let chosen = chosen(options)?;
    let seeds = options.seeds(100)?;
    let large = options.word("size") == Some("large");
    if options.word("short").is_some() {
        let numbered = |question: &'static Question| {
            (question.short)().into_iter().enumerate().map(move |(at, input)| (question, input, format!("short input {at}")))
        };
        return Ok(Box::new(chosen.into_iter().flat_map(numbered)));
    }
    Ok(Box::new(seeds.flat_map(move |seed| {
        let random = if large { Random::large } else { Random::new };
        let made = move |question: &'static Question| (question, (question.make)(&mut random(seed)), format!("seed {seed}"));
        chosen.clone().into_iter().map(made)
    })))
}

pub fn print(options: &Options) -> Done {
    let mut out = BufWriter::new(io::stdout().lock());
    for (question, input, _) in asked(options)? {
        if let Some(answer) = (question.ask)(&input) {
            writeln!(out, "{}", cases::line(question.name, &input, &answer)).map_err(|error| error.to_string())?;
        }
    }
    Ok(true)
}

/// Seeds that a sample is taken from, and the longest line that it takes.
const SAMPLED: u64 = 5000;
const LINE: usize = 240;

pub fn sample(options: &Options) -> Done {
    let each = options.number("each", 8)? as usize;
    for question in &questions::ALL {
        for (_, input) in questions::edges::all().iter().filter(|(name, _)| *name == question.name) {
            let answer = (question.ask)(input).expect("the original has every edge row");
            println!("{}", cases::line(question.name, input, &answer));
        }
        let mut kept: BTreeMap<u8, Vec<String>> = BTreeMap::new();
        for seed in 1..=SAMPLED {
            let input = (question.make)(&mut Random::new(seed));
            let Some(answer) = (question.ask)(&input) else { continue };
            let line = cases::line(question.name, &input, &answer);
            let most = if answer.is_ok() { 3 * each } else { each };
            let lines = kept.entry(answer.err().unwrap_or(0)).or_default();
            if lines.len() < most && line.len() <= LINE && !lines.contains(&line) {
                lines.push(line);
            }
        }
        kept.values().flatten().for_each(|line| println!("{line}"));
    }
    Ok(true)
}

/// What document 01 answers where the original does not.
pub fn alone() -> Done {
    for case in questions::alone::cases() {
        println!("{}", cases::line(case.name, &case.input, &case.answer));
    }
    Ok(true)
}

pub fn replay() -> Done {
    let (mut agree, mut differ) = (0, 0);
    for line in io::stdin().lines() {
        let line = line.map_err(|error| error.to_string())?;
        let mut words = line.split(' ');
        let question = words.next().and_then(questions::named).ok_or(format!("no question in: {line}"))?;
        let input = cases::parse(question.form, &mut words).ok_or(format!("not of the form {}: {line}", question.form))?;
        let answer = (question.ask)(&input).ok_or(format!("the original has no counterpart for: {line}"))?;
        if cases::line(question.name, &input, &answer) == line {
            agree += 1;
        } else {
            println!("kept: {line}\nnow:  {}", cases::line(question.name, &input, &answer));
            differ += 1;
        }
    }
    println!("replay: {agree} agree, {differ} differ");
    Ok(differ == 0 && agree > 0)
}

#[cfg(not(feature = "port"))]
pub fn bench() -> Done {
    Err("built without the feature `port`: there is nothing to time the original against".into())
}

#[cfg(feature = "port")]
pub fn bench() -> Done {
    port::bench::table();
    Ok(true)
}

#[cfg(not(feature = "port"))]
pub fn compare(_options: &Options) -> Done {
    Err("built without the feature `port`: there is nothing to compare the original with".into())
}

#[cfg(feature = "port")]
pub fn compare(options: &Options) -> Done {
    println!("questions: {} asked of the port alone", port::alone()?);
    let mut counts: BTreeMap<&str, [usize; 2]> = BTreeMap::new();
    for (question, input, origin) in asked(options)? {
        let Some(compared) = port::question(question, &input) else { continue };
        if let Err(wrong) = compared {
            let small = port::smallest::smallest(&input, &|one| port::question(question, one).is_some_and(|one| one.is_err()));
            println!("{origin}, question {}: {wrong}", question.name);
            let original = (question.ask)(&small).expect("an input that both are asked");
            println!("smallest found, the original: {}", cases::line(question.name, &small, &original));
            println!("{}", port::question(question, &small).and_then(Result::err).expect("it still differs"));
            return Ok(false);
        }
        counts.entry(question.name).or_default()[usize::from(compared == Ok(false))] += 1;
    }
    let total: usize = counts.values().flatten().sum();
    println!("questions: {total} asked of both, all answers the same (accepted, refused):");
    counts.iter().for_each(|(name, [accepted, refused])| println!("  {name}: {accepted}, {refused}"));
    Ok(total > 0)
}

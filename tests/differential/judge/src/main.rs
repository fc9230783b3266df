//! The original as judge. See the README beside the workspace.

mod archive;
mod blocks;
mod cases;
mod checks;
mod cleaning;
mod commands;
mod counting;
mod damage;
mod inputs;
mod neighbours;
mod options;
#[cfg(feature = "port")]
mod port;
mod questions;
mod random;
mod read;
mod refusals;
mod shapes;
mod shrink;
mod sources;
mod taking;
mod vectors;
mod write;

use commands::{Done, archives, kinds, questions as asking};
use options::Options;
use std::env;
use std::process::ExitCode;

const USAGE: &str = "\
differential vectors FOLDER                     compare the original with kept archives
differential archives [--seed N] [--count N] [--seconds N] [--size small|middle|large]
                                                check generated archives
differential kinds [--seed N] [--count N] [--seconds N]
                                                check that every kind of change, damage and refusal is made
differential short [--events N]                 check every archive of N events (3)
differential keep FOLDER [--seed N] [--count N] [--size S] [--bytes N] [--short all]
                                                write generated archives with the original's answers;
                                                with --short all, some of the archives of three events
differential answer < ARCHIVE                   print the original's listing of one archive
differential cases [--question NAME] [--seed N] [--count N] [--seconds N] [--short all]
                                                print questions over columns with the original's answers;
                                                with --short all, every short input instead of random ones
differential sample [--each N]                  print document 01's edge rows and short cases: N for each refusal
                                                of each question, and 3 N that are accepted
differential alone                              print what the port alone is asked, with document 01's answers
differential replay < CASES                     ask the original again what kept cases ask
differential questions [--question NAME] [--seed N] [--count N] [--seconds N] [--short all] [--size large]
                                                ask the port what the original is asked (feature `port`)
differential bench                              time both on the same inputs (feature `port`)";

/// What chooses the inputs of questions.
const ASKED: &[&str] = &["question", "seed", "count", "seconds", "short", "size"];

fn main() -> ExitCode {
    match command(env::args().skip(1)) {
        Ok(true) => ExitCode::SUCCESS,
        Ok(false) => ExitCode::FAILURE,
        Err(message) => {
            eprintln!("{message}\n\n{USAGE}");
            ExitCode::from(2)
        }
    }
}

fn command(mut words: impl Iterator<Item = String>) -> Done {
    let name = words.next().ok_or("no command")?;
    match name.as_str() {
        "vectors" => archives::vectors(&words.next().ok_or("no folder")?),
        "archives" => archives::archives(&Options::read(words, &["seed", "count", "seconds", "size"])?),
        "kinds" => kinds::kinds(&Options::read(words, &["seed", "count", "seconds"])?),
        "short" => archives::short(&Options::read(words, &["events"])?),
        "keep" => {
            let folder = words.next().ok_or("no folder")?;
            archives::keep(&folder, &Options::read(words, &["seed", "count", "size", "bytes", "short"])?)
        }
        "answer" => archives::answer(),
        "cases" => asking::print(&Options::read(words, ASKED)?),
        "sample" => asking::sample(&Options::read(words, &["each"])?),
        "alone" => asking::alone(),
        "replay" => asking::replay(),
        "bench" => asking::bench(),
        "questions" => asking::compare(&Options::read(words, ASKED)?),
        _ => Err(format!("unknown command {name}")),
    }
}

//! The calls of a list, by their words.

use crate::text;
use ridgeoven::{CLEANED_MAX, Refusal, Run};

/// What a call answers behind `ok`, where it is accepted.
type Answer = Result<String, Refusal>;

struct Call {
    word: &'static str,
    /// What stands behind the word, for people to read.
    arguments: &'static [&'static str],
    /// Makes the call. What is wrong with an argument is said in words.
    make: fn(&mut Run, &[&str]) -> Result<Answer, String>,
}

const CALLS: [Call; 5] = [
    Call { word: "take", arguments: &["HEX"], make: |run, words| Ok(run.take(&bytes(words[0])?).map(|()| String::new())) },
    Call { word: "resolve", arguments: &[], make: |run, _| Ok(run.resolve().map(|()| String::new())) },
    Call { word: "number", arguments: &["OLD"], make: |run, words| Ok(run.new_number(number(words[0])?).map(new_number)) },
    Call { word: "reparented", arguments: &[], make: |run, _| Ok(run.reparented().map(|count| count.to_string())) },
    Call { word: "write", arguments: &["CAP"], make: |run, words| Ok(written(run, number(words[0])?)) },
];

/// The line that answers a call, or what is unclear about it.
pub fn answer(run: &mut Run, line: &str) -> Result<String, String> {
    let mut words = line.split_whitespace();
    let word = words.next().unwrap_or_default();
    let call = CALLS.iter().find(|call| call.word == word).ok_or_else(|| format!("there is no call {}", text::plain(word.as_bytes())))?;
    let mut words: Vec<_> = words.collect();
    // An archive of no bytes has no digits.
    if call.arguments == ["HEX"] && words.is_empty() {
        words.push("");
    }
    if words.len() != call.arguments.len() {
        return Err(format!("as it is called: {}", text::joined([&[word], call.arguments].concat())));
    }
    Ok(match (call.make)(run, &words)? {
        Ok(answer) => format!("{word} ok {answer}").trim_end().into(),
        Err(refusal) => format!("{word} refused {}", refusal.0),
    })
}

fn new_number(new_sn: Option<u64>) -> String {
    new_sn.map_or("-".into(), |new_sn| new_sn.to_string())
}

/// No cleaned archive is longer than `CLEANED_MAX`, so that no more has to be lent, whatever is said.
fn written(run: &Run, cap: u64) -> Answer {
    let mut out = vec![0; usize::try_from(cap).unwrap_or(usize::MAX).min(CLEANED_MAX)];
    let length = run.write(&mut out)?;
    Ok(format!("{length} {}", text::hex(&out[..length])))
}

fn number(word: &str) -> Result<u64, String> {
    word.parse().map_err(|_| format!("{} is no number below 2^64", text::plain(word.as_bytes())))
}

fn bytes(word: &str) -> Result<Vec<u8>, String> {
    let digit = |digit: u8| char::from(digit).to_digit(16).map(|digit| digit as u8);
    let pair = |pair: &[u8]| Some(digit(pair[0])? << 4 | digit(*pair.get(1)?)?);
    word.as_bytes().chunks(2).map(pair).collect::<Option<_>>().ok_or_else(|| "the bytes are not two hexadecimal digits each".into())
}

//! A run of the proved library call by call (feature `port`) beside a run over the original: the files of an archive taken in several
//! takings, calls out of turn and takings that are refused among them, then resolved, asked and written.

use super::boundary::{self, CLEANED_MAX, ridgeoven_new, ridgeoven_new_number, ridgeoven_reparented, ridgeoven_resolve, ridgeoven_take, ridgeoven_write};
use super::lent::Lent;
use crate::random::Random;
use crate::refusals::Number;
use crate::{cleaning, read, write};

#[derive(Debug)]
enum Call {
    Take(Vec<u8>),
    Resolve,
    Write,
    NewNumber(u64),
    Reparented,
}

#[derive(Debug, PartialEq)]
enum Answer {
    Done,
    Wrote(Vec<u8>),
    To(Option<u64>),
    Count(usize),
}

struct Port(Box<boundary::Run>);

impl Port {
    fn step(&mut self, step: boundary::Step) -> Result<Answer, Number> {
        if step.refusal != 0 {
            return Err(step.refusal as Number);
        }
        *self.0 = step.run;
        Ok(Answer::Done)
    }

    /// A refused call's run is not looked at: the one that was given is used again.
    fn ask(&mut self, call: &Call) -> Result<Result<Answer, Number>, String> {
        let refused = |number: u64, answer: Answer| if number == 0 { Ok(answer) } else { Err(number as Number) };
        Ok(match call {
            Call::Take(bytes) => self.step(unsafe { ridgeoven_take(*self.0, bytes.as_ptr(), bytes.len()) }),
            Call::Resolve => self.step(unsafe { ridgeoven_resolve(*self.0) }),
            Call::Write => {
                let mut out = Lent::<u8>::new(CLEANED_MAX);
                let answer = unsafe { ridgeoven_write(*self.0, out.at(), out.len()) };
                refused(answer.refusal, Answer::Wrote(out.taken(answer.length)?.to_vec()))
            }
            Call::NewNumber(old) => {
                let answer = unsafe { ridgeoven_new_number(*self.0, *old) };
                refused(answer.refusal, Answer::To((answer.known != 0).then_some(answer.number)))
            }
            Call::Reparented => {
                let answer = unsafe { ridgeoven_reparented(*self.0) };
                refused(answer.refusal, Answer::Count(answer.length))
            }
        })
    }
}

fn original(run: &mut cleaning::Run, call: &Call) -> Result<Answer, Number> {
    match call {
        Call::Take(bytes) => run.take(bytes).map(|()| Answer::Done),
        Call::Resolve => run.resolve().map(|()| Answer::Done),
        Call::Write => run.write().map(Answer::Wrote),
        Call::NewNumber(old) => run.new_number(*old).map(Answer::To),
        Call::Reparented => run.reparented().map(Answer::Count),
    }
}

/// The archive's files in one to three takings, the second of which may be made twice; then every call, in turn and out of it.
fn calls(bytes: &[u8]) -> Vec<Call> {
    let mut random = Random::new(bytes.iter().fold(bytes.len() as u64, |sum, byte| sum.rotate_left(5) ^ u64::from(*byte)));
    let mut calls = Vec::new();
    let files = read::archive(bytes).unwrap_or_default();
    let (mut from, count) = (0, files.len());
    while from < count {
        let to = if calls.len() == 2 { count } else { from + 1 + random.below(count - from) };
        calls.push(Call::Take(write::archive(&files[from..to])));
        from = to;
    }
    match &calls[..] {
        [] => calls.push(Call::Take(bytes.to_vec())),
        [.., Call::Take(last)] if random.once_in(3) => calls.push(Call::Take(last.clone())),
        _ => {}
    }
    if random.once_in(4) {
        calls.insert(0, random.of(&[|| Call::Write, || Call::Reparented, || Call::NewNumber(0), || Call::Take(Vec::new())])());
    }
    calls.push(Call::Resolve);
    let start = files.first().map_or(0, |file| file.first);
    calls.extend((0..3).map(|_| Call::NewNumber(start.wrapping_add(random.within(0, 40)).wrapping_sub(4))));
    calls.extend([Call::Reparented, Call::Write, Call::Write, Call::Resolve, Call::Take(bytes.to_vec())]);
    calls
}

/// The first call that the two answer otherwise.
pub fn differs(bytes: &[u8]) -> Option<String> {
    let mut port = Port(Box::new(unsafe { ridgeoven_new() }));
    let mut run = cleaning::Run::default();
    calls(bytes).iter().enumerate().find_map(|(place, call)| {
        let expected = original(&mut run, call);
        match port.ask(call) {
            Err(wrong) => Some(format!("call {place}: {wrong}")),
            Ok(answer) => (answer != expected).then(|| format!("call {place}, {call:?}: the original {expected:?}, the port {answer:?}")),
        }
    })
}

//! Lists of calls, as they are played.

mod common;

use common::{command, ran, ran_with, repository};
use std::io::{BufRead, BufReader, Write};
use std::process::Stdio;

#[test]
fn known_lists() {
    for (name, answers) in [("worked", include_str!("known/worked.answers")), ("refused", include_str!("known/refused.answers"))] {
        let calls = repository(&format!("command/tests/known/{name}.calls"));
        ran(["play", calls.to_str().unwrap()]).prints(answers);
    }
    ran_with(["play"], &[include_bytes!("known/worked.calls")]).prints(include_str!("known/worked.answers"));
    ran_with(["play", "-"], &[b"resolve\r\n", b"resolve"]).prints("resolve refused 24\nresolve refused 24\n");
}

/// A line that is no call ends the list; the answers before it stand.
#[test]
fn a_line_that_is_no_call_is_wrong_usage() {
    for (line, words) in [
        ("fly", "there is no call fly"),
        ("take 0", "two hexadecimal digits"),
        ("take 0g", "two hexadecimal digits"),
        ("take 00 00", "as it is called: take HEX"),
        ("number", "as it is called: number OLD"),
        ("number -1", "-1 is no number"),
        ("write 18446744073709551616", "is no number below 2^64"),
        ("resolve now", "as it is called: resolve"),
    ] {
        let played = ran_with(["play"], &[format!("resolve\n\n{line}\nresolve\n").as_bytes()]);
        assert_eq!((played.status, played.text()), (2, "resolve refused 24\n"));
        assert!(played.told.starts_with("ridgeoven: standard input, line 3: ") && played.told.contains(words), "{}", played.told);
    }
}

/// Who plays by hand gets an answer before the next call.
#[test]
fn answers_do_not_wait_for_the_end() {
    let mut child = command(["play"]).stdin(Stdio::piped()).spawn().unwrap();
    let (mut input, mut answers) = (child.stdin.take().unwrap(), BufReader::new(child.stdout.take().unwrap()));
    for (call, answer) in [("resolve\n", "resolve refused 24\n"), ("take\n", "take ok\n"), ("reparented\n", "reparented refused 40\n")] {
        input.write_all(call.as_bytes()).unwrap();
        let mut line = String::new();
        answers.read_line(&mut line).unwrap();
        assert_eq!(line, answer);
    }
    drop(input);
    assert!(child.wait().unwrap().success());
}

//! Document 01's worked archive, and what is refused.

use ridgeoven::{CLEANED_MAX, LISTING_ROOM, Refusal, Run, clean, clean_to_vec, list, list_to_vec};

const ARCHIVE: &[u8] = include_bytes!("../../../crates/clean/stdin");
const CLEANED: &[u8] = include_bytes!("../../../crates/clean/stdout");
const LISTED: &[u8] = include_bytes!("../../../crates/listing/stdout");

#[test]
fn worked_archive() {
    assert_eq!(clean_to_vec(ARCHIVE).as_deref(), Ok(CLEANED));
    assert_eq!(list_to_vec(ARCHIVE).as_deref(), Ok(LISTED));
}

#[test]
fn nothing_past_the_answer() {
    let mut out = [0x5a; CLEANED_MAX];
    assert_eq!(clean(ARCHIVE, &mut out), Ok(CLEANED.len()));
    assert_eq!(&out[..CLEANED.len()], CLEANED);
    assert!(out[CLEANED.len()..].iter().all(|byte| *byte == 0x5a));
}

#[test]
fn room() {
    let mut exact = vec![0; CLEANED.len()];
    assert_eq!(clean(ARCHIVE, &mut exact), Ok(CLEANED.len()));
    let mut short = vec![0x5a; CLEANED.len() - 1];
    assert_eq!(clean(ARCHIVE, &mut short), Err(Refusal(41)));
    assert_eq!(list(ARCHIVE, &mut short), Err(Refusal(41)));
    assert_eq!(list(&ARCHIVE[1..], &mut short), Err(Refusal(23)));
    assert!(short.iter().all(|byte| *byte == 0x5a));
}

#[test]
fn refused() {
    assert_eq!(clean_to_vec(&ARCHIVE[..ARCHIVE.len() - 1]), Err(Refusal(23)));
    assert_eq!(list_to_vec(&ARCHIVE[..ARCHIVE.len() - 1]), Err(Refusal(23)));
    assert_eq!(list_to_vec(&[0; 65537]), Err(Refusal(41)));
    let mut listed = [0x5a; LISTING_ROOM];
    assert_eq!(list(&ARCHIVE[..ARCHIVE.len() - 1], &mut listed), Err(Refusal(23)));
    assert!(listed.iter().all(|byte| *byte == 0x5a));
    assert_eq!(
        Refusal(23).to_string(),
        "refused 23: a record of the archive is broken: its length, version, kind, order, or something that it holds"
    );
    assert_eq!(Refusal(39).words(), "");
}

#[test]
fn step_by_step() {
    let mut run = Run::new();
    assert_eq!(run.write_to_vec(), Err(Refusal(40)));
    assert_eq!(run.take(&ARCHIVE[1..]), Err(Refusal(23)));
    assert_eq!(run.take(ARCHIVE), Ok(()));
    let before = run.clone();
    assert_eq!(run.take(ARCHIVE), Err(Refusal(25)));
    assert_eq!(run.resolve(), Ok(()));
    assert_eq!(run.resolve(), Err(Refusal(40)));
    assert_eq!((run.new_number(101), run.new_number(103), run.new_number(99)), (Ok(None), Ok(Some(101)), Ok(None)));
    assert_eq!(run.reparented(), Ok(1));
    let mut short = vec![0x5a; CLEANED.len() - 1];
    assert_eq!(run.write(&mut short), Err(Refusal(41)));
    assert!(short.iter().all(|byte| *byte == 0x5a));
    assert_eq!(run.write_to_vec().as_deref(), Ok(CLEANED));
    assert_eq!(run.write_to_vec().as_deref(), Ok(CLEANED));
    assert_eq!(before.reparented(), Err(Refusal(40)));
}

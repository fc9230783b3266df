//! The numbers, records and functions of `ridgeoven.h`. Whoever calls them gives pointers of slices that have the lengths given, and no slice
//! that is written is borrowed by anybody else meanwhile.

/// Not every number is asked for here.
#[allow(dead_code)]
mod header {
    include!(concat!(env!("OUT_DIR"), "/header.rs"));
}

use header::RUN_WORDS;
pub use header::{CLEANED_MAX, LISTING_ROOM, STACK, WORDS_ROOM};

#[repr(C)]
pub struct Answer {
    pub refusal: u64,
    pub length: usize,
}

/// What a run holds is the library's own.
#[derive(Clone, Copy)]
#[repr(C)]
pub struct Run([u64; RUN_WORDS]);

#[repr(C)]
pub struct Step {
    pub run: Run,
    pub refusal: u64,
}

#[repr(C)]
pub struct Number {
    pub refusal: u64,
    pub known: u64,
    pub number: u64,
}

unsafe extern "C" {
    pub fn ridgeoven_clean(bytes: *const u8, length: usize, out: *mut u8, room: usize) -> Answer;
    pub fn ridgeoven_list(bytes: *const u8, length: usize, out: *mut u8, room: usize) -> Answer;
    pub fn ridgeoven_words(refusal: u64, out: *mut u8, room: usize) -> Answer;
    pub fn ridgeoven_new() -> Run;
    pub fn ridgeoven_take(run: Run, bytes: *const u8, length: usize) -> Step;
    pub fn ridgeoven_resolve(run: Run) -> Step;
    pub fn ridgeoven_write(run: Run, out: *mut u8, room: usize) -> Answer;
    pub fn ridgeoven_new_number(run: Run, old: u64) -> Number;
    pub fn ridgeoven_reparented(run: Run) -> Answer;
}

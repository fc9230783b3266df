//! The functions of the proved library's crates `ffi_columns`, `ffi_build`, `ffi_refs`, `ffi_cover`, `cover_links`, `ffi_links`, `ffi_links_ask`,
//! `ffi_links_store`, `ffi_links_build`, `ffi_archive`, `ffi_clean` and `ffi_run`. A slice is two parameters, its pointer and its length. Every
//! function answers a record whose first part is a refusal's number, or 0; outputs are lent. The README beside the workspace says what each is given.

/// The numbers of `library/ridgeoven.h`, not all of which are asked for here.
#[allow(dead_code)]
mod header {
    include!(concat!(env!("OUT_DIR"), "/header.rs"));
}

use header::RUN_WORDS;
pub use header::{CLEANED_MAX, LISTING_ROOM};

/// How many entries were written.
#[repr(C)]
pub struct Answer {
    pub refusal: u64,
    pub length: usize,
}

#[repr(C)]
pub struct Granule {
    pub refusal: u64,
    pub forward: usize,
    pub reverse: usize,
    pub inbound: usize,
}

#[repr(C)]
pub struct Label {
    pub refusal: u64,
    pub found: u64,
    pub chain: u32,
    pub seq: u32,
}

#[repr(C)]
pub struct Walked {
    pub refusal: u64,
    pub levels: usize,
    pub handed: usize,
}

#[repr(C)]
pub struct Ancestor {
    pub refusal: u64,
    pub found: u64,
    pub number: u64,
}

#[repr(C)]
pub struct Held {
    pub refusal: u64,
    pub holds: u64,
}

#[repr(C)]
pub struct Covered {
    pub refusal: u64,
    pub ranges: usize,
    pub links: usize,
}

#[repr(C)]
pub struct Resolved {
    pub refusal: u64,
    pub parents: usize,
    pub unresolved: usize,
}

#[repr(C)]
pub struct Sums {
    pub refusal: u64,
    pub files: usize,
    pub events: usize,
    pub roots: usize,
    pub unresolved: usize,
    pub ranges: usize,
    pub links: usize,
    pub forward: usize,
    pub reverse: usize,
    pub inbound: usize,
    pub references: usize,
}

/// A run is the library's own, given and given back by value.
#[derive(Clone, Copy)]
#[repr(C)]
pub struct Run([u64; RUN_WORDS]);

#[repr(C)]
pub struct Step {
    pub run: Run,
    pub refusal: u64,
}

#[repr(C)]
pub struct Renumbered {
    pub refusal: u64,
    pub known: u64,
    pub number: u64,
}

/// A link as the library's records have it.
#[derive(Clone, Copy, Debug, PartialEq)]
#[repr(C)]
pub struct Link {
    pub from_chain: u32,
    pub from_seq: u32,
    pub to_chain: u32,
    pub to_seq: u32,
}

unsafe extern "C" {
    pub fn ridgeoven_new() -> Run;
    pub fn ridgeoven_take(run: Run, bytes: *const u8, bytes_len: usize) -> Step;
    pub fn ridgeoven_resolve(run: Run) -> Step;
    pub fn ridgeoven_write(run: Run, out: *mut u8, out_len: usize) -> Answer;
    pub fn ridgeoven_new_number(run: Run, old: u64) -> Renumbered;
    pub fn ridgeoven_reparented(run: Run) -> Answer;

    pub fn ridgeoven_sums(bytes: *const u8, bytes_len: usize) -> Sums;

    pub fn ridgeoven_write_edges(
        out: *mut u8, out_len: usize, at: usize, fo: *const u64, fo_len: usize, fd: *const i64, fd_len: usize,
        ro: *const u64, ro_len: usize, rd: *const i64, rd_len: usize, io: *const u64, io_len: usize, id: *const i64, id_len: usize,
    ) -> Answer;

    pub fn ridgeoven_write_rows(
        out: *mut u8, out_len: usize, at: usize, flags: *const u8, flags_len: usize, tags: *const u64, tags_len: usize,
    ) -> Answer;

    pub fn ridgeoven_write_references(
        out: *mut u8, out_len: usize, at: usize, offsets: *const u64, offsets_len: usize, kinds: *const u8, kinds_len: usize,
        spaces: *const u8, spaces_len: usize, targets: *const u64, targets_len: usize,
    ) -> Answer;

    pub fn ridgeoven_read_set(
        set: u64, first: u64, rows: usize, end: u64,
        count: u64, offsets: *const u64, offsets_len: usize, deltas: *const i64, deltas_len: usize,
        targets: *mut u64, targets_len: usize,
    ) -> Answer;

    pub fn ridgeoven_read_granule(
        first: u64, rows: usize, end: u64,
        forward_count: u64, forward_offsets: *const u64, forward_offsets_len: usize,
        forward_deltas: *const i64, forward_deltas_len: usize,
        reverse_count: u64, reverse_offsets: *const u64, reverse_offsets_len: usize,
        reverse_deltas: *const i64, reverse_deltas_len: usize,
        inbound_count: u64, inbound_offsets: *const u64, inbound_offsets_len: usize,
        inbound_deltas: *const i64, inbound_deltas_len: usize,
        cover: u64, chains: *const u64, chains_len: usize, seqs: *const u64, seqs_len: usize,
        forward: *mut u64, forward_len: usize, reverse: *mut u64, reverse_len: usize, inbound: *mut u64, inbound_len: usize,
    ) -> Granule;

    pub fn ridgeoven_parents(
        first: u64, rows: usize, end: u64,
        count: u64, offsets: *const u64, offsets_len: usize, deltas: *const i64, deltas_len: usize,
        kind: u64, number: u64, list: *mut u64, list_len: usize,
    ) -> Answer;

    pub fn ridgeoven_children(
        first: u64, rows: usize, end: u64,
        reverse_count: u64, reverse_offsets: *const u64, reverse_offsets_len: usize,
        reverse_deltas: *const i64, reverse_deltas_len: usize,
        inbound_count: u64, inbound_offsets: *const u64, inbound_offsets_len: usize,
        inbound_deltas: *const i64, inbound_deltas_len: usize,
        kind: u64, number: u64, list: *mut u64, list_len: usize,
    ) -> Answer;

    pub fn ridgeoven_label(
        first: u64, rows: usize, chains: *const u64, chains_len: usize, seqs: *const u64, seqs_len: usize, number: u64,
    ) -> Label;

    pub fn ridgeoven_roots(
        first: u64, rows: usize, events: *const u64, events_len: usize, list: *mut u64, list_len: usize,
    ) -> Answer;

    pub fn ridgeoven_walk(
        first: u64, rows: usize, end: u64,
        count: u64, offsets: *const u64, offsets_len: usize, deltas: *const i64, deltas_len: usize,
        kind: u64, limit: usize, start: u64, numbers: *mut u64, numbers_len: usize, ends: *mut u64, ends_len: usize,
    ) -> Walked;

    pub fn ridgeoven_next(
        first: u64, rows: usize, end: u64,
        count: u64, offsets: *const u64, offsets_len: usize, deltas: *const i64, deltas_len: usize,
        kind: u64, limit: usize, visited: *const u64, visited_len: usize, frontier: *const u64, frontier_len: usize,
        level: *mut u64, level_len: usize,
    ) -> Answer;

    pub fn ridgeoven_ancestor(
        first: u64, rows: usize, end: u64,
        count: u64, offsets: *const u64, offsets_len: usize, deltas: *const i64, deltas_len: usize,
        kind: u64, a: u64, b: u64,
    ) -> Ancestor;

    pub fn ridgeoven_links_apart(
        links: *const Link, links_len: usize,
        a: *mut u32, a_len: usize, b: *mut u32, b_len: usize, c: *mut u32, c_len: usize, d: *mut u32, d_len: usize,
    ) -> usize;

    pub fn ridgeoven_links_together(
        a: *const u32, a_len: usize, b: *const u32, b_len: usize, c: *const u32, c_len: usize, d: *const u32, d_len: usize,
        links: *mut Link, links_len: usize,
    ) -> usize;

    pub fn ridgeoven_links_sort(links: *mut Link, links_len: usize) -> Answer;

    pub fn ridgeoven_links_from(
        links: *const Link, links_len: usize, chains: *const u32, chains_len: usize, out: *mut Link, out_len: usize,
    ) -> Answer;

    pub fn ridgeoven_links_store(
        links: *const Link, links_len: usize,
        a: *mut u32, a_len: usize, b: *mut u32, b_len: usize, c: *mut u32, c_len: usize, d: *mut u32, d_len: usize,
    ) -> Answer;

    pub fn ridgeoven_links_build(
        chains: *const u32, chains_len: usize, seqs: *const u32, seqs_len: usize, links: *const Link, links_len: usize,
        ids: *mut u32, ids_len: usize, minima: *mut u32, minima_len: usize, maxima: *mut u32, maxima_len: usize,
        out: *mut Link, out_len: usize,
    ) -> Covered;

    pub fn ridgeoven_cover_store(
        from_chains: *const u32, from_chains_len: usize, from_seqs: *const u32, from_seqs_len: usize,
        to_chains: *const u32, to_chains_len: usize, to_seqs: *const u32, to_seqs_len: usize,
        a: *mut u32, a_len: usize, b: *mut u32, b_len: usize, c: *mut u32, c_len: usize, d: *mut u32, d_len: usize,
    ) -> Answer;

    pub fn ridgeoven_cover_read(
        ids: *const u32, ids_len: usize, minima: *const u32, minima_len: usize, maxima: *const u32, maxima_len: usize,
        differences: *const u32, differences_len: usize, from_seqs: *const u32, from_seqs_len: usize,
        to_chains: *const u32, to_chains_len: usize, to_seqs: *const u32, to_seqs_len: usize,
        a: *mut u32, a_len: usize, b: *mut u32, b_len: usize, c: *mut u32, c_len: usize, d: *mut u32, d_len: usize,
    ) -> Answer;

    pub fn ridgeoven_window(
        ids: *const u32, ids_len: usize, minima: *const u32, minima_len: usize, maxima: *const u32, maxima_len: usize,
        chain: u32, low: u32, high: u32,
    ) -> Held;

    pub fn ridgeoven_chain_links(
        differences: *const u32, differences_len: usize, from_seqs: *const u32, from_seqs_len: usize,
        to_chains: *const u32, to_chains_len: usize, to_seqs: *const u32, to_seqs_len: usize,
        chains: *const u32, chains_len: usize,
        a: *mut u32, a_len: usize, b: *mut u32, b_len: usize, c: *mut u32, c_len: usize, d: *mut u32, d_len: usize,
    ) -> Answer;

    pub fn ridgeoven_cover_build(
        chains: *const u32, chains_len: usize, seqs: *const u32, seqs_len: usize,
        from_chains: *const u32, from_chains_len: usize, from_seqs: *const u32, from_seqs_len: usize,
        to_chains: *const u32, to_chains_len: usize, to_seqs: *const u32, to_seqs_len: usize,
        ids: *mut u32, ids_len: usize, minima: *mut u32, minima_len: usize, maxima: *mut u32, maxima_len: usize,
        a: *mut u32, a_len: usize, b: *mut u32, b_len: usize, c: *mut u32, c_len: usize, d: *mut u32, d_len: usize,
    ) -> Covered;

    pub fn ridgeoven_build(
        subject: *const u8, subject_len: usize, first: u64, rows: usize,
        offsets: *const u64, offsets_len: usize, targets: *const u64, targets_len: usize,
        unresolved_children: *const u64, unresolved_children_len: usize,
        unresolved_kinds: *const u64, unresolved_kinds_len: usize,
        unresolved_flags: *const u64, unresolved_flags_len: usize,
        deep: u64, low: u64, high: u64,
        labelled: u64, chains: *const u32, chains_len: usize, seqs: *const u32, seqs_len: usize,
        inbound_children: *const u64, inbound_children_len: usize,
        inbound_parents: *const u64, inbound_parents_len: usize,
        inbound_kinds: *const u64, inbound_kinds_len: usize,
        from: usize, n: usize,
        forward_offsets: *mut u64, forward_offsets_len: usize, forward_deltas: *mut i64, forward_deltas_len: usize,
        reverse_offsets: *mut u64, reverse_offsets_len: usize, reverse_deltas: *mut i64, reverse_deltas_len: usize,
        inbound_offsets: *mut u64, inbound_offsets_len: usize, inbound_deltas: *mut i64, inbound_deltas_len: usize,
    ) -> Granule;

    pub fn ridgeoven_resolve_graph(
        first: u64, rows: usize, starts: *const u64, starts_len: usize,
        kinds: *const u8, kinds_len: usize, spaces: *const u8, spaces_len: usize, targets: *const u64, targets_len: usize,
        known: *const u8, known_len: usize, numbers: *const u64, numbers_len: usize,
        offsets: *mut u64, offsets_len: usize, parents: *mut u64, parents_len: usize,
        record_children: *mut u64, record_children_len: usize, record_kinds: *mut u64, record_kinds_len: usize,
        record_places: *mut u64, record_places_len: usize,
    ) -> Resolved;

    pub fn ridgeoven_clean(bytes: *const u8, bytes_len: usize, out: *mut u8, out_len: usize) -> Answer;

    pub fn ridgeoven_list(bytes: *const u8, bytes_len: usize, out: *mut u8, out_len: usize) -> Answer;
}

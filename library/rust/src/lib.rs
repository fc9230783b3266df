//! Cleans room archives. The work is done by a proved library; this crate hands slices to it and turns numbers into results.
//!
//! ```
//! let nothing = ridgeoven::clean_to_vec(&[]);
//! assert_eq!(nothing, Err(ridgeoven::Refusal(24)));
//! ```

mod boundary;
mod links;
mod refs;
mod refusal;
mod run;
#[cfg(test)]
mod sizes;

pub use links::{Cover, LINKS_MAX, Link, Range, build_cover, chain_links, links_from, sort_links, store_links};
pub use refs::{Parents, Reference, ReferenceKind, ResolvedGraph, Space, Unresolved, resolve_graph, write_references};
pub use refusal::Refusal;
pub use run::Run;

use boundary::{ridgeoven_clean, ridgeoven_list};
use refusal::length;
use std::thread;

/// No cleaned archive is longer.
pub const CLEANED_MAX: usize = boundary::CLEANED_MAX;

/// No listing needs more room.
pub const LISTING_ROOM: usize = boundary::LISTING_ROOM;

/// What a call needs, and two copies of a run that debug builds make besides, is more than many threads have: each call is made on a thread of
/// its own.
const STACK: usize = boundary::STACK + 2 * size_of::<boundary::Run>();

/// What a call answers that is made with stack enough.
fn on_stack<T: Send>(call: impl FnOnce() -> T + Send) -> T {
    thread::scope(|scope| {
        let made = thread::Builder::new().stack_size(STACK).spawn_scoped(scope, call).expect("there is a thread for the call");
        made.join().expect("the call returns")
    })
}

fn in_vec(room: usize, call: impl FnOnce(&mut [u8]) -> Result<usize, Refusal>) -> Result<Vec<u8>, Refusal> {
    let mut out = vec![0; room];
    let length = call(&mut out)?;
    out.truncate(length);
    Ok(out)
}

/// Cleans an archive into `out`: how long the cleaned archive is. A refused call writes nothing, an accepted one nothing past its length.
pub fn clean(bytes: &[u8], out: &mut [u8]) -> Result<usize, Refusal> {
    length(on_stack(|| unsafe { ridgeoven_clean(bytes.as_ptr(), bytes.len(), out.as_mut_ptr(), out.len()) }))
}

/// The cleaned archive.
pub fn clean_to_vec(bytes: &[u8]) -> Result<Vec<u8>, Refusal> {
    in_vec(CLEANED_MAX, |out| clean(bytes, out))
}

/// The listing of an archive's cleaning into `out`: how long it is. A refused call writes nothing, an accepted one nothing past its length.
/// `LISTING_ROOM` bytes are enough for any; an archive of more than 65,536 bytes is refused with 41.
pub fn list(bytes: &[u8], out: &mut [u8]) -> Result<usize, Refusal> {
    length(on_stack(|| unsafe { ridgeoven_list(bytes.as_ptr(), bytes.len(), out.as_mut_ptr(), out.len()) }))
}

/// The listing's text.
pub fn list_to_vec(bytes: &[u8]) -> Result<Vec<u8>, Refusal> {
    in_vec(LISTING_ROOM, |out| list(bytes, out))
}

//! Inputs for the questions: sound ones, and the same with one thing moved to an edge or over it. All are within the limits of
//! document 01's 42 and 43, which the original does not have.

mod building;
mod cover;
mod reading;
mod refs;

pub use building::{build, roots};
pub use cover::{cover, decode, links, stored, window};
pub use reading::{children, label, parents, read, walk};
pub use refs::resolve;

use crate::cases::{Part, number};
use crate::random::Random;

const REACH: u64 = i64::MAX as u64;

/// A granule of a file: its first number, its rows, the file's end.
#[derive(Clone)]
struct Place {
    first: u64,
    rows: u64,
    end: u64,
}

fn place(random: &mut Random) -> Place {
    let rows = match random.below(12) {
        _ if random.large => random.of(&[64, 1023, 1024]).min(random.within(1, 2000)),
        0 => random.within(0, 40),
        _ => random.within(0, 4),
    };
    let near = random.within(0, 3);
    let last = u64::MAX - rows;
    let first = random.of(&[near, 100, 100, 1000, (1 << 63) - near, (1 << 63) + near, last - near, last]).min(last);
    let end = first + rows;
    let end = if random.once_in(4) { random.of(&[end.saturating_add(2), end.saturating_sub(1), u64::MAX]) } else { end };
    Place { first, rows, end }
}

/// The granule's numbers now and then pass 2^64 − 1, which only a set with edges is refused for.
fn overflowing(random: &mut Random, place: &mut Place) {
    if random.once_in(25) && place.rows > 0 {
        place.first = u64::MAX - random.within(0, place.rows - 1);
        place.end = u64::MAX;
    }
}

impl Place {
    fn parts(&self) -> Vec<Part> {
        vec![number(self.first), number(self.rows), number(self.end)]
    }

    /// A number in the granule, or next to it.
    fn number(&self, random: &mut Random) -> u64 {
        let past = self.first.saturating_add(self.rows);
        let inside = self.first.saturating_add(random.within(0, self.rows.saturating_sub(1)));
        random.of(&[inside, inside, inside, inside, past, past.saturating_add(1), self.first.saturating_sub(1), 0, u64::MAX])
    }
}

/// Targets of a slot on the side of a set: 0 forward, 1 reverse, 2 inbound.
fn targets(random: &mut Random, place: &Place, set: usize, event: u64) -> Vec<u64> {
    let (low, high) = match set {
        0 => (event.saturating_sub(REACH), event.saturating_sub(1)),
        1 => (event.saturating_add(1), place.end.saturating_sub(1)),
        _ => (place.end.max(event.saturating_sub(REACH)), event.saturating_add(1 << 63)),
    };
    let mut found = Vec::new();
    // with so many rows all slots together stay within a column
    let most = (2048 / place.rows.max(1)).min(6);
    for _ in 0..random.of(&[0, 0, 1, 1, 2, 3, 6]).min(most) {
        if low <= high && !(set == 0 && event == 0) {
            let near = if set == 0 { high - random.within(0, (high - low).min(5)) } else { low + random.within(0, (high - low).min(5)) };
            found.push(random.of(&[near, near, near, near, low, high]));
        }
    }
    found
}

//! Document 01's edge rows over columns and covers, and the near misses that its rows catch: inputs that every sample begins with.

use crate::archive::Set;
use crate::cases::{Part, list, number};

/// A question and an input.
pub type Asked = (&'static str, Vec<Part>);

const TOP: u64 = 1 << 63;

/// A file to build: a subject of one byte and no records; the granule is the whole file.
struct File<'a> {
    first: u64,
    slots: &'a [&'a [u64]],
    labels: &'a [(u32, u32)],
    inbound: &'a [(u64, u64, u64)],
}

const TWO_ROWS: &[&[u64]] = &[&[], &[], &[], &[]];
const BARE: File = File { first: 100, slots: &[&[], &[]], labels: &[], inbound: &[] };

impl File<'_> {
    fn asked(&self) -> Asked {
        let ends = (1..=self.slots.len()).map(|slot| self.slots[..slot].concat().len() as u64);
        let none = || Part::List(Vec::new());
        let rows = self.slots.len() as u64 / 2;
        let column = |part: fn(&(u64, u64, u64)) -> u64| list(&self.inbound.iter().map(part).collect::<Vec<_>>());
        let label = |part: fn(&(u32, u32)) -> u32| list(&self.labels.iter().map(part).collect::<Vec<_>>());
        let mut input = vec![list(b"a"), number(self.first), number(rows), list(&[0].into_iter().chain(ends).collect::<Vec<_>>())];
        input.extend([list(&self.slots.concat()), none(), none(), none(), none(), number(u8::from(!self.labels.is_empty()))]);
        input.extend([label(|label| label.0), label(|label| label.1)]);
        input.extend([column(|edge| edge.0), column(|edge| edge.1), column(|edge| edge.2), number(0u8), number(rows)]);
        ("build", input)
    }
}

fn built() -> Vec<Asked> {
    let files = [
        File { first: u64::MAX - 1, ..BARE },
        File { first: u64::MAX - 1, slots: TWO_ROWS, ..BARE },
        // the delta of a parent is event minus target, not target minus event
        File { slots: &[&[99], &[]], ..BARE },
        File { slots: &[&[100], &[]], ..BARE },
        File { slots: &[&[99], &[99]], ..BARE },
        File { slots: &[&[99, 99], &[]], ..BARE },
        File { slots: TWO_ROWS, labels: &[(1, 4), (1, 5)], ..BARE },
        File { slots: TWO_ROWS, labels: &[(1, 4), (1, 4)], ..BARE },
        File { inbound: &[(101, 100, 0)], ..BARE },
        File { inbound: &[(100, 100, 0)], ..BARE },
        File { slots: &[], ..BARE },
        File { first: TOP, slots: &[&[1], &[]], ..BARE },
        File { first: TOP, slots: &[&[0], &[]], ..BARE },
        File { first: 0, inbound: &[(TOP, 0, 0)], ..BARE },
        File { first: 0, inbound: &[(TOP + 1, 0, 0)], ..BARE },
    ];
    files.iter().map(File::asked).collect()
}

/// A question over a file's forward set: place, set, then what is asked.
fn forward(name: &'static str, slots: &[Vec<u64>], asked: &[u64]) -> Asked {
    let set = Set::of(100, slots);
    let rows = slots.len() as u64 / 2;
    let mut input = vec![number(100u8), number(rows), number(100 + rows), number(set.count), list(&set.offsets), list(&set.deltas)];
    input.extend(asked.iter().map(|word| number(*word)));
    (name, input)
}

/// All of them, in the order of the rows.
pub fn all() -> Vec<Asked> {
    // the worked run's output; the walk goes from 101, and a level is cut to its smallest numbers
    let worked = [vec![90], vec![], vec![100, 95], vec![100]];
    let mut found: Vec<Asked> = (0..5).map(|limit| forward("walk", &worked, &[0, limit, 101])).collect();
    found.extend(built());
    // a parent named twice in a source's slot is read as it stands
    found.push(forward("parents", &[vec![99, 99], vec![]], &[0, 100]));
    let window = |low: u8, high: u8| vec![list(&[1]), list(&[2]), list(&[7]), number(1), number(low), number(high)];
    found.push(("window", window(5, 3)));
    found.push(("stored", vec![list(&[5, 3]), list(&[0, 0]), list(&[0, 0]), list(&[0, 0])]));
    let none = || Part::List(Vec::new());
    found.push(("decode", vec![none(), none(), none(), list(&[5, u32::MAX - 1]), list(&[0, 0]), list(&[0, 0]), list(&[0, 0])]));
    found
}

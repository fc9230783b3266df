//! Times of the original and of the port on the same inputs, in one process: the best of many calls each.

use super::boundary::{
    CLEANED_MAX, ridgeoven_build, ridgeoven_children, ridgeoven_clean, ridgeoven_cover_build, ridgeoven_cover_read, ridgeoven_cover_store, ridgeoven_new,
    ridgeoven_parents, ridgeoven_read_granule, ridgeoven_resolve, ridgeoven_take, ridgeoven_walk, ridgeoven_write,
};
use crate::archive::{Cover, File, Range, Row, Set};
use crate::blocks;
use crate::cleaning;
use crate::questions::OneFile;
use crate::random::Random;
use crate::{sources, write};
use original::layout::api::EventGraph;
use original::layout::graph::{
    ChainCover, ChainCoverInput, ChainLabel, ChainLink, EdgeKind, GranuleEdges, GraphEdge, GraphInput, RowEdges, decode_granule_edges, encode_graph_blocks,
};
use original::layout::shown::{decode_cover, encode_cover};
use std::hint::black_box;
use std::time::{Duration, Instant};

const FIRST: u64 = 1_000_000;
const GROUPS: usize = 16;
const CALLS: usize = 200;

/// The best time of a call in microseconds.
fn best(mut call: impl FnMut()) -> f64 {
    let mut best = Duration::MAX;
    for _ in 0..CALLS {
        let start = Instant::now();
        call();
        best = best.min(start.elapsed());
    }
    best.as_secs_f64() * 1e6
}

/// Forward, reverse and inbound sets of a file, and their lists slot by slot.
struct Inputs {
    rows: usize,
    end: u64,
    lists: [Vec<Vec<u64>>; 3],
    sets: [Set; 3],
}

impl Inputs {
    fn of(rows: usize, lists: [Vec<Vec<u64>>; 3]) -> Self {
        let sets = lists.each_ref().map(|lists| Set::of(FIRST, lists));
        Inputs { rows, end: FIRST + rows as u64, lists, sets }
    }
}

/// The last row names four numbers before the file for each row, in any order: one wide level.
fn wide(rows: usize) -> Inputs {
    let mut random = Random::new(rows as u64);
    let mut level: Vec<u64> = (1..=4 * rows as u64).map(|step| FIRST - 5 * step).collect();
    for at in (1..level.len()).rev() {
        level.swap(at, random.below(at + 1));
    }
    let mut lists: [Vec<Vec<u64>>; 3] = std::array::from_fn(|_| vec![Vec::new(); 2 * rows]);
    lists[0][2 * (rows - 1)] = level;
    Inputs::of(rows, lists)
}

/// Each row names `each` earlier numbers in each kind, some of them before the file.
fn inputs(rows: usize, each: usize) -> Inputs {
    let mut random = Random::new(rows as u64);
    let end = FIRST + rows as u64;
    let mut lists: [Vec<Vec<u64>>; 3] = std::array::from_fn(|_| vec![Vec::new(); 2 * rows]);
    for slot in 0..2 * rows {
        let event = FIRST + slot as u64 / 2;
        let kinds = if each == 1 { 1 } else { 2 };
        if slot % 2 >= kinds {
            continue;
        }
        for step in 0..each as u64 {
            let target = if step == 0 { event - 1 } else { event - 1 - random.within(1, 2 * rows as u64) };
            lists[0][slot].push(target);
            if target >= FIRST {
                lists[1][2 * (target - FIRST) as usize + slot % 2].push(event);
            }
        }
        lists[2][slot].push(end + slot as u64);
    }
    Inputs::of(rows, lists)
}

impl Inputs {
    fn decoded(&self, block: &[u8]) -> GranuleEdges {
        decode_granule_edges(block, FIRST, self.rows as u32, self.end, false).expect("a sound granule")
    }

    /// The inbound edges, each of a child, a parent and a kind.
    fn inbound(&self) -> Vec<(u64, u64, u64)> {
        (0..).zip(&self.lists[2]).flat_map(|(slot, list)| list.iter().map(move |child| (*child, FIRST + slot / 2, slot % 2))).collect()
    }

    fn graph(&self) -> GraphInput {
        let rows = self.lists[0].chunks(2).map(|slots| RowEdges { prev: slots[0].clone(), auth: slots[1].clone() }).collect();
        let kinds = [EdgeKind::Prev, EdgeKind::Auth];
        let of = |&(child, parent, kind): &(u64, u64, u64)| GraphEdge { child, kind: kinds[kind as usize], parent };
        let inbound = self.inbound().iter().map(of).collect();
        GraphInput { first_sn: FIRST, rows, subject: b"a".to_vec(), inbound, ..GraphInput::default() }
    }

    /// The file as an archive.
    fn archive(&self, erased: fn(u64) -> bool) -> Vec<u8> {
        self.archive_with(erased, None)
    }

    fn archive_with(&self, erased: fn(u64) -> bool, cover: Option<Cover>) -> Vec<u8> {
        let rows = (0..self.rows as u64).map(|tag| Row { erased: erased(tag), tag }).collect();
        let (subject, sets) = (b"a".to_vec(), self.sets.clone());
        let (unresolved, roots, references) = (Vec::new(), Vec::new(), Vec::new());
        write::archive(&[File { first: FIRST, group: 0, subject, depth: None, sets, rows, unresolved, roots, cover, references }])
    }

    /// The same with a cover of at most sixty-four chains and as many links as rows.
    fn covered(&self) -> Vec<u8> {
        let (rows, chains) = (self.rows as u32, 64.min(self.rows as u32));
        let mut links: Vec<[u32; 4]> = (0..rows).map(|at| [at % chains, at / chains, at * 7 % chains, at / chains]).collect();
        links.sort_unstable();
        let differences = links.iter().scan(0u32, |last, link| Some(link[0].wrapping_sub(std::mem::replace(last, link[0]))));
        let column = |part: usize| links.iter().map(|link| link[part]).collect::<Vec<u32>>();
        let cover = Cover {
            chains: (0..rows).map(|row| row % chains).collect(),
            seqs: (0..rows).map(|row| row / chains).collect(),
            ranges: (0..chains).map(|chain| Range { chain, least: 0, greatest: (rows - 1 - chain) / chains }).collect(),
            links: [differences.collect(), column(1), column(2), column(3)],
        };
        self.archive_with(|_| false, Some(cover))
    }

    /// The rows in sixteen files, each a group of its own, without inbound edges.
    fn groups(&self) -> Vec<u8> {
        let each = self.rows / GROUPS;
        let file = |group: usize| {
            let (from, first) = (group * each, FIRST + (group * each) as u64);
            let forward = self.lists[0][2 * from..2 * (from + each)].to_vec();
            let rows = (from..from + each).map(|row| Row { erased: false, tag: row as u64 }).collect();
            let (subject, sets) = (b"a".to_vec(), [Set::of(first, &forward), Set::empty(each), Set::empty(each)]);
            let (unresolved, roots, references) = (Vec::new(), Vec::new(), Vec::new());
            File { first, group: group as u8, subject, depth: None, sets, rows, unresolved, roots, cover: None, references }
        };
        write::archive(&(0..GROUPS).map(file).collect::<Vec<_>>())
    }

    /// The original is given its own rows and edges, the port columns.
    fn build(&self) -> [f64; 2] {
        let (graph, edges) = (self.graph(), self.inbound());
        let granule = [sources::granule(self.rows)];
        let rust = best(|| drop(black_box(encode_graph_blocks(&graph, self.rows as u64, &granule).expect("a sound file"))));
        let (offsets, targets) = (&self.sets[0].offsets, self.lists[0].concat());
        let column = |part: fn(&(u64, u64, u64)) -> u64| edges.iter().map(part).collect::<Vec<u64>>();
        let [children, parents, by] = [column(|edge| edge.0), column(|edge| edge.1), column(|edge| edge.2)];
        let mut out: [(Vec<u64>, Vec<i64>); 3] = std::array::from_fn(|_| (vec![0; 2049], vec![0; 4096]));
        let port = best(|| {
            let [(a, b), (c, d), (e, f)] = &mut out;
            let built = unsafe {
                ridgeoven_build(
                    b"a".as_ptr(), 1, FIRST, self.rows, offsets.as_ptr(), offsets.len(), targets.as_ptr(), targets.len(),
                    [].as_ptr(), 0, [].as_ptr(), 0, [].as_ptr(), 0, 0, 0, 0, 0, [].as_ptr(), 0, [].as_ptr(), 0,
                    children.as_ptr(), children.len(), parents.as_ptr(), parents.len(), by.as_ptr(), by.len(), 0, self.rows,
                    a.as_mut_ptr(), a.len(), b.as_mut_ptr(), b.len(), c.as_mut_ptr(), c.len(), d.as_mut_ptr(), d.len(),
                    e.as_mut_ptr(), e.len(), f.as_mut_ptr(), f.len(),
                )
            };
            assert_eq!(built.refusal, 0);
        });
        [rust, port]
    }

    fn read(&self) -> [f64; 2] {
        let block = blocks::granule(&self.sets, None);
        let [f, r, i] = &self.sets;
        let mut out = [vec![0u64; 4096], vec![0u64; 4096], vec![0u64; 4096]];
        let rust = best(|| drop(black_box(self.decoded(&block))));
        let port = best(|| {
            let [a, b, c] = &mut out;
            let answer = unsafe {
                ridgeoven_read_granule(
                    FIRST, self.rows, self.end,
                    f.count.into(), f.offsets.as_ptr(), f.offsets.len(), f.deltas.as_ptr(), f.deltas.len(),
                    r.count.into(), r.offsets.as_ptr(), r.offsets.len(), r.deltas.as_ptr(), r.deltas.len(),
                    i.count.into(), i.offsets.as_ptr(), i.offsets.len(), i.deltas.as_ptr(), i.deltas.len(),
                    0, [].as_ptr(), 0, [].as_ptr(), 0,
                    a.as_mut_ptr(), a.len(), b.as_mut_ptr(), b.len(), c.as_mut_ptr(), c.len(),
                )
            };
            assert_eq!(answer.refusal, 0);
        });
        [rust, port]
    }

    /// Both read the columns first.
    fn parents(&self) -> [f64; 2] {
        let forward = [self.sets[0].clone(), Set::empty(self.rows), Set::empty(self.rows)];
        let (block, f) = (blocks::granule(&forward, None), &self.sets[0]);
        let mut out = vec![0u64; 4096];
        let rust = best(|| drop(black_box(self.decoded(&block).parents(self.end - 1, EdgeKind::Prev).to_vec())));
        let port = best(|| {
            let answer = unsafe {
                ridgeoven_parents(
                    FIRST, self.rows, self.end, f.count.into(), f.offsets.as_ptr(), f.offsets.len(), f.deltas.as_ptr(), f.deltas.len(),
                    0, self.end - 1, out.as_mut_ptr(), out.len(),
                )
            };
            assert_eq!(answer.refusal, 0);
        });
        [rust, port]
    }

    fn children(&self) -> [f64; 2] {
        let sets = [Set::empty(self.rows), self.sets[1].clone(), self.sets[2].clone()];
        let (block, r, i) = (blocks::granule(&sets, None), &self.sets[1], &self.sets[2]);
        let mut out = vec![0u64; 4096];
        let rust = best(|| drop(black_box(self.decoded(&block).children(FIRST, EdgeKind::Prev))));
        let port = best(|| {
            let answer = unsafe {
                ridgeoven_children(
                    FIRST, self.rows, self.end,
                    r.count.into(), r.offsets.as_ptr(), r.offsets.len(), r.deltas.as_ptr(), r.deltas.len(),
                    i.count.into(), i.offsets.as_ptr(), i.offsets.len(), i.deltas.as_ptr(), i.deltas.len(),
                    0, FIRST, out.as_mut_ptr(), out.len(),
                )
            };
            assert_eq!(answer.refusal, 0);
        });
        [rust, port]
    }

    fn walk(&self) -> [f64; 2] {
        let forward = [self.sets[0].clone(), Set::empty(self.rows), Set::empty(self.rows)];
        let (block, f) = (blocks::granule(&forward, None), &self.sets[0]);
        let (mut numbers, mut ends) = (vec![0u64; 4096], vec![0u64; 4096]);
        let rust = best(|| {
            let file = OneFile(self.decoded(&block));
            drop(black_box(file.walk(b"a", self.end - 1, EdgeKind::Prev, 4096).map(|level| level.expect("a level")).collect::<Vec<_>>()));
        });
        let port = best(|| {
            let walked = unsafe {
                ridgeoven_walk(
                    FIRST, self.rows, self.end, f.count.into(), f.offsets.as_ptr(), f.offsets.len(), f.deltas.as_ptr(), f.deltas.len(),
                    0, 4096, self.end - 1, numbers.as_mut_ptr(), numbers.len(), ends.as_mut_ptr(), ends.len(),
                )
            };
            assert_eq!(walked.refusal, 0);
        });
        [rust, port]
    }
}

/// Both read an archive, renumber it and write it; the original is spared taking's rules. The bytes are the same.
fn cleaned(bytes: &[u8]) -> [f64; 2] {
    let mut out = vec![0u8; CLEANED_MAX];
    let mut length = 0;
    let rust = best(|| drop(black_box(cleaning::renumbered(bytes))));
    let port = best(|| {
        let answer = unsafe { ridgeoven_clean(bytes.as_ptr(), bytes.len(), out.as_mut_ptr(), out.len()) };
        assert_eq!(answer.refusal, 0);
        length = answer.length;
    });
    assert!(cleaning::renumbered(bytes) == out[..length]);
    [rust, port]
}

/// The same by the steps of a run, which goes in and out of each call by value.
fn stepped(bytes: &[u8]) -> [f64; 2] {
    let mut out = vec![0u8; CLEANED_MAX];
    let mut length = 0;
    let rust = best(|| drop(black_box(cleaning::renumbered(bytes))));
    let port = best(|| {
        let taken = unsafe { ridgeoven_take(ridgeoven_new(), bytes.as_ptr(), bytes.len()) };
        let resolved = unsafe { ridgeoven_resolve(taken.run) };
        let answer = unsafe { ridgeoven_write(resolved.run, out.as_mut_ptr(), out.len()) };
        assert_eq!([taken.refusal, resolved.refusal, answer.refusal], [0; 3]);
        length = answer.length;
    });
    assert!(cleaning::renumbered(bytes) == out[..length]);
    [rust, port]
}

fn link_columns(links: &[ChainLink]) -> [Vec<u32>; 4] {
    let column = |part: fn(&ChainLink) -> u32| links.iter().map(part).collect::<Vec<u32>>();
    [column(|l| l.from_chain), column(|l| l.from_seq), column(|l| l.to_chain), column(|l| l.to_seq)]
}

/// A cover built of as many labels as links, four to a chain, the links sorted or in any order.
fn cover_built(count: usize, sorted: bool) -> [f64; 2] {
    let mut random = Random::new(count as u64);
    let mut links: Vec<ChainLink> = (0..count as u32).map(|at| ChainLink { from_chain: at / 4, from_seq: at % 4, to_chain: at, to_seq: 1 }).collect();
    let mut labels: Vec<ChainLabel> = (0..count as u32).map(|at| ChainLabel { chain_id: at / 4, seq: at % 4 }).collect();
    if !sorted {
        for at in (1..count).rev() {
            links.swap(at, random.below(at + 1));
            labels.swap(at, random.below(at + 1));
        }
    }
    let (chains, seqs): (Vec<u32>, Vec<u32>) = labels.iter().map(|label| (label.chain_id, label.seq)).unzip();
    let [a, b, c, d] = link_columns(&links);
    let input = ChainCoverInput { labels, links };
    let mut out: [Vec<u32>; 7] = std::array::from_fn(|_| vec![0; 1024]);
    let rust = best(|| drop(black_box(ChainCover::build(&input))));
    let port = best(|| {
        let [i, j, k, w, x, y, z] = &mut out;
        let built = unsafe {
            ridgeoven_cover_build(
                chains.as_ptr(), chains.len(), seqs.as_ptr(), seqs.len(),
                a.as_ptr(), a.len(), b.as_ptr(), b.len(), c.as_ptr(), c.len(), d.as_ptr(), d.len(),
                i.as_mut_ptr(), i.len(), j.as_mut_ptr(), j.len(), k.as_mut_ptr(), k.len(),
                w.as_mut_ptr(), w.len(), x.as_mut_ptr(), x.len(), y.as_mut_ptr(), y.len(), z.as_mut_ptr(), z.len(),
            )
        };
        assert_eq!(built.refusal, 0);
    });
    [rust, port]
}

/// A cover of so many links, stored and read back.
fn cover(count: usize) -> [[f64; 2]; 2] {
    let links: Vec<ChainLink> =
        (0..count as u32).map(|at| ChainLink { from_chain: at / 4, from_seq: at % 4, to_chain: at, to_seq: 1 }).collect();
    let given = link_columns(&links);
    let mut out: [Vec<u32>; 4] = std::array::from_fn(|_| vec![0; 1024]);
    let whole = ChainCover { chains: Vec::new(), links };
    let [a, b, c, d] = &given;
    let store = [
        best(|| drop(black_box(encode_cover(&whole)))),
        best(|| {
            let [w, x, y, z] = &mut out;
            let answer = unsafe {
                ridgeoven_cover_store(
                    a.as_ptr(), a.len(), b.as_ptr(), b.len(), c.as_ptr(), c.len(), d.as_ptr(), d.len(),
                    w.as_mut_ptr(), w.len(), x.as_mut_ptr(), x.len(), y.as_mut_ptr(), y.len(), z.as_mut_ptr(), z.len(),
                )
            };
            assert_eq!(answer.refusal, 0);
        }),
    ];
    let bytes = encode_cover(&whole);
    let stored: [Vec<u32>; 4] = out.each_ref().map(|column| column[..count].to_vec());
    let [a, b, c, d] = &stored;
    let read = [
        best(|| drop(black_box(decode_cover(&bytes).expect("a sound cover")))),
        best(|| {
            let [w, x, y, z] = &mut out;
            let answer = unsafe {
                ridgeoven_cover_read(
                    [].as_ptr(), 0, [].as_ptr(), 0, [].as_ptr(), 0,
                    a.as_ptr(), a.len(), b.as_ptr(), b.len(), c.as_ptr(), c.len(), d.as_ptr(), d.len(),
                    w.as_mut_ptr(), w.len(), x.as_mut_ptr(), x.len(), y.as_mut_ptr(), y.len(), z.as_mut_ptr(), z.len(),
                )
            };
            assert_eq!(answer.refusal, 0);
        }),
    ];
    [store, read]
}

fn line(name: &str, shape: &str, times: &[[f64; 2]]) {
    let cells: String = times.iter().map(|[rust, port]| format!(" {rust:.1} / {port:.1} = {:.1} |", rust / port)).collect();
    let grows = |side: usize| format!("{:.1}", times[2][side] / times[0][side]);
    println!("| {name} | {shape} |{cells} {} / {} |", grows(0), grows(1));
}

pub fn table() {
    println!("Microseconds, best of {CALLS} calls: the original / the port = how many times the port is faster. Lent slices are not cleared.\n");
    println!("| call | edges | 64 rows | 256 rows | 1,024 rows | 64 to 1,024 grows by |\n|---|---|---|---|---|---|");
    for (shape, each) in [("one a row", 1), ("two a slot", 2)] {
        let sizes = [64, 256, 1024].map(|rows| inputs(rows, each));
        line("build a granule", shape, &sizes.each_ref().map(Inputs::build));
        line("read a granule", shape, &sizes.each_ref().map(Inputs::read));
        for (part, erased) in [("no row erased", (|_| false) as fn(u64) -> bool), ("every fourth row erased", |row| row % 4 == 1)] {
            if each == 1 || !erased(1) {
                line("clean an archive", &format!("{shape}, {part}"), &sizes.each_ref().map(|one| cleaned(&one.archive(erased))));
            }
        }
        line("clean an archive", &format!("{shape}, sixteen groups"), &sizes.each_ref().map(|one| cleaned(&one.groups())));
        line("clean an archive", &format!("{shape}, a cover"), &sizes.each_ref().map(|one| cleaned(&one.covered())));
        line("clean it step by step", &format!("{shape}, no row erased"), &sizes.each_ref().map(|one| stepped(&one.archive(|_| false))));
        line("parents", shape, &sizes.each_ref().map(Inputs::parents));
        line("children", shape, &sizes.each_ref().map(Inputs::children));
        line("walk", shape, &sizes.each_ref().map(Inputs::walk));
    }
    line("walk", "one wide level", &[64, 256, 1024].map(wide).each_ref().map(Inputs::walk));
    line("build a cover", "links sorted", &[64, 256, 1024].map(|count| cover_built(count, true)));
    line("build a cover", "links in any order", &[64, 256, 1024].map(|count| cover_built(count, false)));
    let covers = [64, 256, 1024].map(cover);
    line("store links", "as many links", &covers.map(|[store, _]| store));
    line("read a cover", "as many links", &covers.map(|[_, read]| read));
}

//! The links of a chain cover as records: sorted, asked for, stored and built into a cover by proved functions over them.

use crate::boundary::Answer;
use crate::refusal::{Refusal, accepted, length};

/// No more links are taken, and no answer has more.
pub const LINKS_MAX: usize = 1024;

/// A link from one chain's seq to another's. Links compare in this order.
#[derive(Clone, Copy, Debug, Default, PartialEq, Eq, PartialOrd, Ord, Hash)]
#[repr(C)]
pub struct Link {
    pub from_chain: u32,
    pub from_seq: u32,
    pub to_chain: u32,
    pub to_seq: u32,
}

/// A chain's least and greatest seq.
#[derive(Clone, Copy, Debug, PartialEq, Eq)]
pub struct Range {
    pub chain: u32,
    pub least: u32,
    pub greatest: u32,
}

/// A cover: ranges by rising chain id; links sorted, none twice.
#[derive(Clone, Debug, PartialEq, Eq)]
pub struct Cover {
    pub ranges: Vec<Range>,
    pub links: Vec<Link>,
}

#[repr(C)]
pub(crate) struct Covered {
    refusal: u64,
    ranges: usize,
    links: usize,
}

unsafe extern "C" {
    fn ridgeoven_links_together(
        a: *const u32, a_length: usize, b: *const u32, b_length: usize, c: *const u32, c_length: usize, d: *const u32, d_length: usize,
        links: *mut Link, links_room: usize,
    ) -> usize;
    fn ridgeoven_links_sort(links: *mut Link, links_length: usize) -> Answer;
    fn ridgeoven_links_from(
        links: *const Link, links_length: usize, chains: *const u32, chains_length: usize, out: *mut Link, out_room: usize,
    ) -> Answer;
    fn ridgeoven_links_build(
        chains: *const u32, chains_length: usize, seqs: *const u32, seqs_length: usize, links: *const Link, links_length: usize, ids: *mut u32,
        ids_room: usize, minima: *mut u32, minima_room: usize, maxima: *mut u32, maxima_room: usize, out: *mut Link, out_room: usize,
    ) -> Covered;
    fn ridgeoven_links_store(
        links: *const Link, links_length: usize, a: *mut u32, a_room: usize, b: *mut u32, b_room: usize, c: *mut u32, c_room: usize, d: *mut u32,
        d_room: usize,
    ) -> Answer;
    fn ridgeoven_chain_links(
        e: *const u32, e_length: usize, f: *const u32, f_length: usize, g: *const u32, g_length: usize, h: *const u32, h_length: usize,
        chains: *const u32, chains_length: usize, a: *mut u32, a_room: usize, b: *mut u32, b_room: usize, c: *mut u32, c_room: usize,
        d: *mut u32, d_room: usize,
    ) -> Answer;
}

/// Four columns, of which the first `n` numbers are links.
struct Columns {
    of: [[u32; LINKS_MAX]; 4],
    n: usize,
}

impl Columns {
    fn empty() -> Self {
        Columns { of: [[0; LINKS_MAX]; 4], n: 0 }
    }

    fn to_vec(&self) -> Vec<Link> {
        let mut links = vec![Link::default(); self.n];
        let [a, b, c, d] = self.columns();
        unsafe {
            ridgeoven_links_together(
                a.as_ptr(), a.len(), b.as_ptr(), b.len(), c.as_ptr(), c.len(), d.as_ptr(), d.len(), links.as_mut_ptr(), links.len(),
            )
        };
        links
    }

    fn columns(&self) -> [&[u32]; 4] {
        self.of.each_ref().map(|column| &column[..self.n])
    }
}

/// The cover of labels, chain and seq each, and of links in any order: the labels' ranges, and the links sorted.
pub fn build_cover(labels: &[(u32, u32)], links: &[Link]) -> Result<Cover, Refusal> {
    let (chains, seqs): (Vec<u32>, Vec<u32>) = labels.iter().copied().unzip();
    let mut ranges = [[0; LINKS_MAX]; 3];
    let mut out = vec![Link::default(); LINKS_MAX];
    let [ids, minima, maxima] = &mut ranges;
    let built = unsafe {
        ridgeoven_links_build(
            chains.as_ptr(), chains.len(), seqs.as_ptr(), seqs.len(), links.as_ptr(), links.len(), ids.as_mut_ptr(), ids.len(),
            minima.as_mut_ptr(), minima.len(), maxima.as_mut_ptr(), maxima.len(), out.as_mut_ptr(), out.len(),
        )
    };
    let count = accepted(built.refusal, built.ranges)?;
    out.truncate(built.links);
    let [ids, minima, maxima] = &ranges;
    let ranges = (0..count).map(|at| Range { chain: ids[at], least: minima[at], greatest: maxima[at] }).collect();
    Ok(Cover { ranges, links: out })
}

/// Puts links in order at the start of their slice, repeats dropped, and answers how many they are; what stands behind them stays.
pub fn sort_links(links: &mut [Link]) -> Result<usize, Refusal> {
    length(unsafe { ridgeoven_links_sort(links.as_mut_ptr(), links.len()) })
}

/// The links from any of the chains, in their order. Links that do not rise are refused, as a cover has them rising.
pub fn chain_links(links: &[Link], chains: &[u32]) -> Result<Vec<Link>, Refusal> {
    let mut out = vec![Link::default(); LINKS_MAX];
    let found = length(unsafe {
        ridgeoven_links_from(links.as_ptr(), links.len(), chains.as_ptr(), chains.len(), out.as_mut_ptr(), out.len())
    })?;
    out.truncate(found);
    Ok(out)
}

/// The stored columns of links: differences of from chains, from seqs, to chains, to seqs.
pub fn store_links(links: &[Link]) -> Result<[Vec<u32>; 4], Refusal> {
    let mut stored = Columns::empty();
    let [a, b, c, d] = &mut stored.of;
    stored.n = length(unsafe {
        ridgeoven_links_store(
            links.as_ptr(), links.len(), a.as_mut_ptr(), a.len(), b.as_mut_ptr(), b.len(), c.as_mut_ptr(), c.len(), d.as_mut_ptr(), d.len(),
        )
    })?;
    Ok(stored.columns().map(<[u32]>::to_vec))
}

/// The links of stored columns from any of the chains, in the cover's order.
pub fn links_from(stored: &[Vec<u32>; 4], chains: &[u32]) -> Result<Vec<Link>, Refusal> {
    let [e, f, g, h] = stored;
    let mut found = Columns::empty();
    let [a, b, c, d] = &mut found.of;
    found.n = length(unsafe {
        ridgeoven_chain_links(
            e.as_ptr(), e.len(), f.as_ptr(), f.len(), g.as_ptr(), g.len(), h.as_ptr(), h.len(), chains.as_ptr(), chains.len(), a.as_mut_ptr(),
            a.len(), b.as_mut_ptr(), b.len(), c.as_mut_ptr(), c.len(), d.as_mut_ptr(), d.len(),
        )
    })?;
    Ok(found.to_vec())
}

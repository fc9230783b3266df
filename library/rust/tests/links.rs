//! Links as records: sorted in place, built into a cover, stored and asked for.

use std::collections::{BTreeMap, BTreeSet};

use ridgeoven::{Link, Range, Refusal, build_cover, chain_links, links_from, sort_links, store_links};

fn link(numbers: [u32; 4]) -> Link {
    let [from_chain, from_seq, to_chain, to_seq] = numbers;
    Link { from_chain, from_seq, to_chain, to_seq }
}

/// Numbers below what is asked for, the same each time.
fn numbers(mut state: u64) -> impl FnMut(u64) -> u32 {
    move |below| {
        state = state.wrapping_mul(6_364_136_223_846_793_005).wrapping_add(1_442_695_040_888_963_407);
        ((state >> 33) % below) as u32
    }
}

#[test]
fn links_are_sorted_in_place() {
    let mut links = [[3, 1, 1, 1], [2, 9, 1, 1], [3, 1, 1, 1], [2, 9, 1, 0]].map(link);
    assert_eq!(sort_links(&mut links), Ok(3));
    assert_eq!(links, [[2, 9, 1, 0], [2, 9, 1, 1], [3, 1, 1, 1], [2, 9, 1, 0]].map(link));
    assert_eq!(sort_links(&mut []), Ok(0));
}

#[test]
fn many_links_are_sorted_as_the_standard_library_does() {
    let mut next = numbers(1);
    for count in [1, 17, 64, 65, 300, 1024] {
        for below in [2, 40, 1 << 31] {
            let mut links: Vec<Link> = (0..count).map(|_| link([next(below), next(below), next(below), next(below)])).collect();
            let mut wanted = links.clone();
            wanted.sort_unstable();
            wanted.dedup();
            let kept = sort_links(&mut links).expect("so many are taken");
            assert_eq!(links[..kept], wanted);
        }
    }
}

#[test]
fn a_cover_is_built_stored_and_asked() {
    let links = [[5, 1, 7, 2], [3, 4, 5, 1]].map(link);
    let cover = build_cover(&[(5, 9), (3, 4), (5, 1)], &links).expect("it is sound");
    assert_eq!(cover.ranges, [Range { chain: 3, least: 4, greatest: 4 }, Range { chain: 5, least: 1, greatest: 9 }]);
    assert_eq!(cover.links, [[3, 4, 5, 1], [5, 1, 7, 2]].map(link));
    let stored = store_links(&cover.links).expect("they are few");
    assert_eq!(stored, [vec![3, 2], vec![4, 1], vec![5, 7], vec![1, 2]]);
    assert_eq!(links_from(&stored, &[5, 8]), Ok(vec![link([5, 1, 7, 2])]));
    assert_eq!(links_from(&store_links(&links).expect("any order is stored"), &[5]), Err(Refusal(22)));
}

#[test]
fn many_covers_are_built_as_the_standard_library_does() {
    let mut next = numbers(5);
    for count in [0, 1, 17, 65, 300, 1024] {
        for below in [2, 40, 1 << 31] {
            let labels: Vec<(u32, u32)> = (0..count).map(|_| (next(below), next(below))).collect();
            let links: Vec<Link> = (0..1024 - count).map(|_| link([next(below), next(below), next(below), next(below)])).collect();
            let mut wanted = BTreeMap::new();
            for (chain, seq) in labels.iter().copied() {
                let range = wanted.entry(chain).or_insert((seq, seq));
                *range = (seq.min(range.0), seq.max(range.1));
            }
            let cover = build_cover(&labels, &links).expect("so many are taken");
            let ranges: Vec<Range> = wanted.into_iter().map(|(chain, (least, greatest))| Range { chain, least, greatest }).collect();
            assert_eq!(cover.ranges, ranges);
            assert_eq!(cover.links, links.into_iter().collect::<BTreeSet<_>>().into_iter().collect::<Vec<_>>());
        }
    }
}

#[test]
fn links_of_chains_are_found() {
    let links = [[3, 4, 5, 1], [5, 1, 7, 2], [5, 2, 3, 4], [8, 0, 3, 4]].map(link);
    assert_eq!(chain_links(&links, &[8, 5, 5, 1]), Ok(links[1..].to_vec()));
    assert_eq!(chain_links(&links, &[]), Ok(vec![]));
    assert_eq!(chain_links(&[links[1], links[0]], &[5]), Err(Refusal(22)));
    assert_eq!(chain_links(&[links[0], links[0]], &[5]), Err(Refusal(22)));
    assert_eq!(chain_links(&links, &[5; 4097]), Err(Refusal(43)));
}

#[test]
fn too_many_links_are_refused() {
    let mut links = vec![Link::default(); 1025];
    links[0].to_seq = 1;
    let given = links.clone();
    assert_eq!(sort_links(&mut links), Err(Refusal(42)));
    assert_eq!(links, given);
    assert_eq!(chain_links(&links, &[]), Err(Refusal(42)));
    assert_eq!(build_cover(&[], &links), Err(Refusal(42)));
    assert_eq!(build_cover(&[(1, 1); 1025], &[]), Err(Refusal(42)));
}

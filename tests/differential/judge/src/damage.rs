//! Damaged copies of an archive's bytes.

use crate::random::Random;

type Damage = fn(&mut Random, &mut Vec<u8>);

/// Every damage, each tried as often as any other.
pub const DAMAGES: [(&str, Damage); 8] = [
    ("cut short", cut_short),
    ("byte more", byte_more),
    ("byte less", byte_less),
    ("bit turned", bit_turned),
    ("byte at an edge", byte_at_an_edge),
    ("bytes behind", bytes_behind),
    ("header", header),
    ("records moved", records_moved),
];

/// One damage or two; the names of those that changed something.
pub fn damage(random: &mut Random, bytes: &mut Vec<u8>) -> Vec<&'static str> {
    let mut made = Vec::new();
    for _ in 0..1 + random.below(2) {
        let (name, damage) = random.of(&DAMAGES);
        let before = bytes.clone();
        damage(random, bytes);
        if *bytes != before {
            made.push(name);
        }
    }
    made
}

/// The place of a byte; there is none where an earlier damage left no byte.
fn place(random: &mut Random, bytes: &[u8]) -> Option<usize> {
    (!bytes.is_empty()).then(|| random.below(bytes.len()))
}

fn cut_short(random: &mut Random, bytes: &mut Vec<u8>) {
    if let Some(place) = place(random, bytes) {
        bytes.truncate(place);
    }
}

fn byte_more(random: &mut Random, bytes: &mut Vec<u8>) {
    let place = random.below(bytes.len() + 1);
    bytes.insert(place, random.next() as u8);
}

fn byte_less(random: &mut Random, bytes: &mut Vec<u8>) {
    if let Some(place) = place(random, bytes) {
        bytes.remove(place);
    }
}

fn bit_turned(random: &mut Random, bytes: &mut Vec<u8>) {
    if let Some(place) = place(random, bytes) {
        bytes[place] ^= 1 << random.below(8);
    }
}

fn byte_at_an_edge(random: &mut Random, bytes: &mut Vec<u8>) {
    if let Some(place) = place(random, bytes) {
        bytes[place] = random.of(&[0, 1, 2, 127, 128, 255]);
    }
}

fn bytes_behind(random: &mut Random, bytes: &mut Vec<u8>) {
    bytes.extend((0..1 + random.below(8)).map(|_| random.next() as u8).collect::<Vec<u8>>());
}

/// Where the records start.
fn records(bytes: &[u8]) -> Vec<usize> {
    let mut places = Vec::new();
    let mut place = 0;
    while let Some(length) = bytes.get(place..place + 4) {
        places.push(place);
        place += 4 + u32::from_be_bytes(length.try_into().expect("four bytes")) as usize;
    }
    places
}

/// A record's length, version or kind changed by one, or its length to an edge. Where an earlier damage left no whole length, there is none.
fn header(random: &mut Random, bytes: &mut Vec<u8>) {
    let places = records(bytes);
    if places.is_empty() {
        return;
    }
    let place = random.of(&places);
    let length = u32::from_be_bytes(bytes[place..place + 4].try_into().expect("four bytes"));
    let step = random.of(&[1, u32::MAX]);
    match random.below(4) {
        0 => bytes[place..place + 4].copy_from_slice(&length.wrapping_add(step).to_be_bytes()),
        1 => bytes[place..place + 4].copy_from_slice(&random.of(&[0, 1, 2, u32::MAX]).to_be_bytes()),
        part => {
            if let Some(byte) = bytes.get_mut(place + 2 + part) {
                *byte = byte.wrapping_add(step as u8);
            }
        }
    }
}

/// A record left out, doubled, or moved behind the next.
fn records_moved(random: &mut Random, bytes: &mut Vec<u8>) {
    let mut places = records(bytes);
    places.push(bytes.len());
    if places.len() < 3 {
        return;
    }
    let at = random.below(places.len() - 2);
    let (start, middle, end) = (places[at], places[at + 1], places[at + 2]);
    match random.below(3) {
        0 => drop(bytes.drain(start..middle)),
        1 => {
            let copy = bytes[start..middle].to_vec();
            bytes.splice(middle..middle, copy);
        }
        _ => bytes[start..end].rotate_left(middle - start),
    }
}

//! Options, trees and chunk lists of every sort: sound, damaged, at the limits, and bytes without
//! any sense. The sound ones are made by the oracle's generator.
use oracle::generate::{self, Rng};
use oracle::stored::{MAX_CHUNKS, MAX_TREE};

pub fn options(rng: &mut Rng) -> Vec<u8> {
    let mut bytes = generate::options(rng);
    match rng.below(16) {
        0 => wound(rng, &mut bytes),
        1 => bytes = noise(rng, 12),
        _ => (),
    }
    bytes
}

pub fn tree(rng: &mut Rng) -> Vec<u8> {
    let mut bytes = match rng.below(1000) {
        0 => full_tree(rng),
        1..=20 => generate::deep_tree(60 + rng.below(8), rng.below(3)),
        21..=50 => return noise(rng, 300),
        51..=120 => generate::tree(rng, true),
        _ => generate::tree(rng, false),
    };
    damage(rng, &mut bytes);
    bytes
}

pub fn list(rng: &mut Rng) -> Vec<u8> {
    let mut bytes = match rng.below(5000) {
        0 => full_list(rng),
        1..=150 => return noise(rng, 300),
        151..=500 => generate::chunks(rng, true),
        _ => generate::chunks(rng, false),
    };
    damage(rng, &mut bytes);
    bytes
}

/// Half of the inputs stay as they are; most others have a wound or two.
fn damage(rng: &mut Rng, bytes: &mut Vec<u8>) {
    match rng.below(10) {
        0..=4 => (),
        5..=7 => generate::damage(rng, bytes),
        8 if rng.below(2) == 0 => wound(rng, bytes),
        8 => (0..2 + rng.below(8)).for_each(|_| wound(rng, bytes)),
        _ => lift(rng, bytes),
    }
}

/// A letter lifted above 127: nearly always of a text, so that the layout stays sound.
fn lift(rng: &mut Rng, bytes: &mut [u8]) {
    let at = rng.below(bytes.len() + 1);
    if let Some(letter) = bytes[at..].iter_mut().find(|b| b.is_ascii_alphabetic()) {
        *letter |= 128;
    }
}

/// A bit flipped, a byte lifted above 127, bytes put in, taken out or doubled, the end cut off.
fn wound(rng: &mut Rng, bytes: &mut Vec<u8>) {
    let at = rng.below(bytes.len() + 1);
    let end = (at + 1 + rng.below(8)).min(bytes.len());
    match rng.below(7) {
        0 if at < end => bytes[at] ^= 1 << rng.below(8),
        1 | 2 if at < end => bytes[at] |= 128,
        3 => {
            let put_in = noise(rng, 4);
            bytes.splice(at..at, put_in);
        }
        4 => {
            bytes.drain(at..end);
        }
        5 => bytes.extend_from_within(at..end),
        _ => bytes.truncate(at),
    }
}

fn noise(rng: &mut Rng, limit: usize) -> Vec<u8> {
    let highest = [3, 45, 128, 256][rng.below(4)];
    (0..rng.below(limit))
        .map(|_| rng.below(highest) as u8)
        .collect()
}

/// A tree whose length is near the largest: the tokens of many trees, then an `Error` whose text
/// takes the rest.
fn full_tree(rng: &mut Rng) -> Vec<u8> {
    let length = MAX_TREE - 4 + rng.below(8);
    let (mut tokens, mut count): (Vec<u8>, u16) = (vec![], 1);
    let largest_text = rng.below(MAX_TREE - 100);
    loop {
        let more = generate::tree(rng, false);
        if tokens.len() + more.len() + largest_text + 10 > length {
            break;
        }
        tokens.extend(&more[4..]);
        count += u16::from_le_bytes([more[2], more[3]]);
    }
    let text = vec![b'e'; length - tokens.len() - 10];
    let mut bytes = vec![24, 0];
    bytes.extend(count.to_le_bytes());
    bytes.extend(tokens);
    bytes.extend([8, 2, 25, 2]);
    bytes.extend((text.len() as u16).to_le_bytes());
    bytes.extend(text);
    bytes
}

/// A list whose length is near the largest: many lists, then chunks of one letter.
fn full_list(rng: &mut Rng) -> Vec<u8> {
    let length = MAX_CHUNKS - 4 + rng.below(8);
    let mut bytes = vec![];
    loop {
        let more = generate::chunks(rng, false);
        if bytes.len() + more.len() + 16 > length {
            break;
        }
        bytes.extend(more);
    }
    while length - bytes.len() >= 8 {
        bytes.extend([0, 1, 0, b'z']);
    }
    let last = length - bytes.len() - 3;
    bytes.extend([0, last as u8, 0]);
    bytes.extend(vec![b'z'; last]);
    bytes
}

//! Sheets at the boundary of each check from 1 to 7, on either side of it.

use super::draft::*;
use super::random::Random;

const TRAILER: usize = 16;

/// Gives the bytes of the draft with something changed.
pub fn broken(random: &mut Random, draft: &Draft) -> Vec<u8> {
    let mut draft = draft.clone();
    if random.below(10) < 6 {
        for _ in 0..random.pick(&[1, 1, 2, 3]) {
            match random.below(5) {
                0 | 1 => record(random, &mut draft),
                2 => channel(random, &mut draft),
                _ => line(random, &mut draft),
            }
        }
        if random.below(4) < 3 {
            return draft.bytes();
        }
    }
    let bytes = draft.bytes();
    match random.below(9) {
        0 => length(random, bytes),
        1 => last_four_bytes(random, bytes),
        2 | 3 => limits(random, draft),
        4 => distances(random, bytes),
        5 => cut(random, bytes),
        6 => random_bytes(random),
        _ => changed(random, bytes),
    }
}

fn changed(random: &mut Random, mut bytes: Vec<u8>) -> Vec<u8> {
    for _ in 0..random.pick(&[1, 1, 1, 2, 3]) {
        let place = random.below(bytes.len());
        bytes[place] = random.bits() as u8;
    }
    bytes
}

/// Bytes before the sheet so that it has the length given.
fn lengthened(bytes: Vec<u8>, length: usize) -> Vec<u8> {
    let mut longer = vec![0; length.saturating_sub(bytes.len())];
    longer.extend(bytes);
    longer
}

fn length(random: &mut Random, bytes: Vec<u8>) -> Vec<u8> {
    let kept = random.pick(&[0, 1, 4, 12, 15, 16]);
    if random.one_in(2) {
        return bytes[bytes.len() - kept..].to_vec();
    }
    lengthened(bytes, random.pick(&[3103, 3104, 3105, 4096]))
}

fn last_four_bytes(random: &mut Random, mut bytes: Vec<u8>) -> Vec<u8> {
    let place = bytes.len() - 1 - random.below(4);
    bytes[place] ^= 1 << random.below(8);
    bytes
}

fn limits(random: &mut Random, mut draft: Draft) -> Vec<u8> {
    if random.one_in(2) {
        return over_limit_in_trailer(random, draft.bytes());
    }
    draft.lines.clear();
    match random.below(4) {
        0 => draft.v = random.pick(&[24, 25, 25]),
        1 => draft.channels = vec![0; random.pick(&[16, 17, 17])],
        2 => draft.records = vec![[0; 32]; random.pick(&[64, 65, 65])],
        _ => draft.lines = vec![[0; 4]; random.pick(&[256, 257, 257])],
    }
    draft.records.resize(draft.records.len().max(1), [0; 32]);
    draft.bytes()
}

fn over_limit_in_trailer(random: &mut Random, mut bytes: Vec<u8>) -> Vec<u8> {
    let trailer = bytes.len() - TRAILER;
    match random.below(5) {
        0 => bytes[trailer + 6] = random.pick(&[24, 25, 255]),
        1 => bytes[trailer + 7] = random.pick(&[64, 65, 255]),
        2 => bytes[trailer + 8] = random.pick(&[16, 17, 255]),
        3 => bytes[trailer + 9] = random.pick(&[1, 128, 255]),
        _ => {
            bytes[trailer + 10] = random.pick(&[0, 1, 255]);
            bytes[trailer + 11] = random.pick(&[1, 1, 2, 255]);
        }
    }
    bytes
}

fn distances(random: &mut Random, mut bytes: Vec<u8>) -> Vec<u8> {
    match random.below(4) {
        0 => lengthened(bytes.clone(), bytes.len() + 1),
        1 => bytes[1..].to_vec(),
        _ => {
            let place = bytes.len() - TRAILER + random.below(6);
            let change = random.pick(&[1, 4, 32, 128, 255]);
            bytes[place] = bytes[place].wrapping_add(change);
            bytes
        }
    }
}

fn record(random: &mut Random, draft: &mut Draft) {
    if draft.records.is_empty() {
        draft.record([0; 32]);
    }
    let place = random.below(draft.records.len());
    if draft.v < 24 && random.one_in(2) {
        let column = random.pick(&[draft.v, 23]);
        draft.records[place][column] = random.pick(&[1, -1, 64]);
    } else {
        let exponent = random.pick(&[64, -64, 65, -65, -128, 127]);
        draft.records[place][random.column(draft.v)] = exponent;
    }
}

fn channel(random: &mut Random, draft: &mut Draft) {
    if draft.channels.is_empty() {
        draft.channels.push(0);
    }
    let u = draft.records.len() as u8;
    let place = random.below(draft.channels.len());
    draft.channels[place] = random.pick(&[u, u, u.wrapping_add(1), 255, u.saturating_sub(1)]);
}

fn line(random: &mut Random, draft: &mut Draft) {
    if draft.lines.is_empty() {
        draft.line(NUMBER, 0, 0);
    }
    let index = random.below(draft.lines.len());
    let (own, before) = (index as u8, index.saturating_sub(1) as u8);
    let (v, c, u) = (draft.v, draft.channels.len(), draft.records.len());
    let [v, c, u] = [v, c, u].map(|n| n as u8);
    let earlier = random.pick(&[ADD, SUBTRACT, MULTIPLY, DIVIDE, LESS_THAN]);
    draft.lines[index] = match random.below(12) {
        0 => [9, 0, 0, 0],
        1 => [random.bits() as u8, 0, 0, 0],
        2 => [NUMBER, 255, 255, random.pick(&[0, 1, 255])],
        3 => [READING, c, 0, 0],
        4 => [READING, c.saturating_sub(1), random.pick(&[0, 1]), 0],
        5 => [earlier, own, before, 0],
        6 => [earlier, before, own, 0],
        7 => [earlier, before, before, random.pick(&[0, 1])],
        8 => [ROOT, before, random.pick(&[v, v.saturating_sub(1)]), 0],
        9 => [ROOT, random.pick(&[own, before]), 0, random.pick(&[0, 4])],
        10 => [STATED, before, random.pick(&[u, u.saturating_sub(1)]), 0],
        _ => [STATED, own, 0, 0],
    };
}

fn cut(random: &mut Random, bytes: Vec<u8>) -> Vec<u8> {
    let place = random.below(bytes.len());
    if random.one_in(2) {
        bytes[place..].to_vec()
    } else {
        bytes[..place].to_vec()
    }
}

fn random_bytes(random: &mut Random) -> Vec<u8> {
    let length = random.below(200);
    let mut bytes: Vec<u8> = (0..length).map(|_| random.bits() as u8).collect();
    if random.one_in(2) {
        bytes.extend(b"CSH1");
    }
    bytes
}

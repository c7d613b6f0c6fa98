//! Sheets with many rounds.

use super::draft::*;
use super::random::Random;
use super::wide::LIMIT;

/// Two numbers up to `most` on which Euclid's algorithm takes many steps.
pub fn euclid_pair(random: &mut Random, most: i64) -> (i64, i64) {
    let (mut larger, mut smaller) = (random.range(2, 3), 1);
    loop {
        let quotient = random.pick(&[1, 1, 1, 1, 1, 1, 1, 1, 1, 2]);
        let next = quotient * larger + smaller;
        if next > most {
            return (larger, smaller);
        }
        (larger, smaller) = (next, larger);
    }
}

fn pair_power(draft: &mut Draft, first: (u8, i64), second: (u8, i64)) -> u8 {
    let both = draft.line(MULTIPLY, first.0, second.0);
    let mut result = None;
    for bit in (0..28).rev() {
        result = result.map(|line| draft.line(MULTIPLY, line, line));
        let factor = match (first.1 >> bit & 1, second.1 >> bit & 1) {
            (0, 0) => continue,
            (1, 0) => first.0,
            (0, _) => second.0,
            _ => both,
        };
        result = Some(match result {
            Some(line) => draft.line(MULTIPLY, line, factor),
            None => factor,
        });
    }
    result.unwrap_or(both)
}

/// Pairs of unknowns, each with an equation of many rounds.
pub fn pairs(random: &mut Random, v: usize) -> Draft {
    let count = if v < 4 {
        1
    } else {
        random.below(v / 2).min(3) + 1
    };
    let mut draft = Draft::new(v.max(2));
    for pair in 0..count {
        let most = random.pick(&[60, 5_000, 1_000_000, LIMIT, LIMIT]);
        let (larger, smaller) = euclid_pair(random, most);
        let (x, y) = random.pick(&[(larger, smaller), (smaller, larger)]);
        let first = draft.reading(one(2 * pair, 1));
        let second = draft.reading(one(2 * pair + 1, random.sign() as i8));
        let line = pair_power(&mut draft, (first, x), (second, y));
        let exponent = random.pick(&[0, 0, 1, -1]);
        draft.stated(line, one(random.base(), exponent));
    }
    draft
}

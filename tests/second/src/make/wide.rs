//! Sheets at the limit and just past it.

use super::draft::*;
use super::random::Random;

pub const LIMIT: i64 = 100_000_000;

/// A number at the limit or about it, now and then one that is small in its last 32 bits.
pub fn near_limit(random: &mut Random) -> i64 {
    match random.below(9) {
        0 | 1 => LIMIT,
        2 | 3 => LIMIT + 1,
        4 => LIMIT - 1,
        5 => (1 << 32) + random.range(-1, 1),
        _ => random.range(LIMIT - 10_000_000, LIMIT + 20_000_000),
    }
}

/// Two lines whose exponents in one column are apart by about the limit.
fn far_apart(random: &mut Random, draft: &mut Draft) -> (u8, u8) {
    let total = near_limit(random);
    let part = random.range(total / 4, 3 * total / 4);
    let column = random.column(draft.v);
    let sign = random.sign() as i8;
    let first = draft.reading(one(column, sign));
    let left = draft.power(first, part);
    let second = draft.reading(one(column, -sign));
    let right = draft.power(second, total - part);
    (left, right)
}

pub fn line_unit(random: &mut Random, v: usize) -> Draft {
    let mut draft = Draft::new(v);
    if random.one_in(2) {
        let (left, right) = far_apart(random, &mut draft);
        draft.line(DIVIDE, left, right);
        return draft;
    }
    let column = random.column(v);
    let reading = draft.reading(one(column, random.sign() as i8));
    let total = near_limit(random);
    let power = draft.power(reading, total);
    draft.line(LESS_THAN, power, power);
    draft
}

pub fn equation(random: &mut Random, v: usize) -> Draft {
    let mut draft = Draft::new(v);
    let total = near_limit(random);
    match random.below(3) {
        0 if v > 0 => {
            let unknown = random.below(v);
            let reading = draft.reading(one(unknown, -1));
            solve_as_1(random, &mut draft, reading);
            let power = draft.power(reading, (total - 2).min(LIMIT));
            draft.line(ROOT, power, unknown as u8);
        }
        1 => {
            let column = random.column(v);
            let stated = random.range(1, 64);
            let reading = draft.reading(one(column, 1));
            if column < v {
                solve_as_1(random, &mut draft, reading);
            }
            let power = draft.power(reading, (total - stated).min(LIMIT));
            draft.stated(power, one(column, -stated as i8));
        }
        _ => {
            let (left, right) = far_apart(random, &mut draft);
            draft.line(random.pick(&[ADD, SUBTRACT, LESS_THAN]), left, right);
        }
    }
    draft
}

/// Now and then solves the reading as 1: what is raw still counts.
fn solve_as_1(random: &mut Random, draft: &mut Draft, reading: u8) {
    if random.one_in(2) {
        draft.stated(reading, [0; 32]);
    }
}

/// Two columns of unknowns and one of an unknown or a base, all different.
pub fn three_columns(random: &mut Random, v: usize) -> [usize; 3] {
    loop {
        let columns = [random.below(v), random.below(v), random.column(v)];
        let [first, second, target] = columns;
        if first != second && first != target && second != target {
            return columns;
        }
    }
}

pub fn three_unknowns(random: &mut Random, v: usize) -> [usize; 3] {
    loop {
        let columns = three_columns(random, v);
        if columns[2] < v {
            return columns;
        }
    }
}

/// `unknown^n target^d` as a line, and `target^e`, with ne + d near the limit.
struct Product {
    reading: u8,
    line: u8,
    record: Record,
}

fn product(random: &mut Random, draft: &mut Draft, unknown: usize, target: usize) -> Product {
    let total = near_limit(random);
    let exponent = random.range(2, 64);
    let n = total / exponent + random.range(0, 1);
    let reading = draft.reading(one(unknown, 1));
    let mut line = draft.power(reading, n);
    let rest = total - n * exponent;
    if rest != 0 {
        let rest = draft.reading(one(target, rest as i8));
        line = draft.line(MULTIPLY, line, rest);
    }
    Product {
        reading,
        line,
        record: one(target, exponent as i8),
    }
}

/// The equation after replacing, or only a line question's result, near the limit.
pub fn replaced(random: &mut Random, v: usize, is_equation: bool) -> Draft {
    let mut draft = Draft::new(v.max(2));
    let [unknown, _, target] = three_columns(random, draft.v);
    let made = product(random, &mut draft, unknown, target);
    draft.stated(made.reading, made.record);
    end(&mut draft, made.line, is_equation)
}

fn end(draft: &mut Draft, line: u8, is_equation: bool) -> Draft {
    let number = draft.line(NUMBER, 7, 0);
    let code = if is_equation { LESS_THAN } else { MULTIPLY };
    draft.line(code, line, number);
    draft.clone()
}

/// As before, of two parts that are each far past the limit.
pub fn parts(random: &mut Random, v: usize, is_equation: bool) -> Draft {
    let mut draft = Draft::new(v.max(2));
    let [first, second, target] = three_columns(random, draft.v);
    let (e, f) = (random.range(2, 64), random.range(2, 64));
    let n = random.range(LIMIT / e, 2 * LIMIT / e).min(LIMIT);
    let total = random.pick(&[0, 1, LIMIT, LIMIT + 1, -LIMIT]);
    let left = draft.reading(one(first, 1));
    let right = draft.reading(one(second, 1));
    draft.stated(left, one(target, e as i8));
    draft.stated(right, one(target, f as i8));
    let m = ((n * e - total) / f).clamp(1, LIMIT);
    let above = draft.power(left, n);
    let below = draft.power(right, m);
    let mut line = draft.line(DIVIDE, above, below);
    let rest = (total - n * e + m * f).clamp(-64, 64);
    let rest = draft.reading(one(target, rest as i8));
    line = draft.line(MULTIPLY, line, rest);
    end(&mut draft, line, is_equation)
}

/// A line's unit is that of one side of its equation, as it was before solving.
pub fn side(random: &mut Random, v: usize) -> Draft {
    let mut draft = Draft::new(v.max(1));
    let exponent = random.range(2, 64);
    let total = near_limit(random).min(2 * LIMIT);
    let record = one(random.base(), exponent as i8);
    let unknown = draft.reading(one(random.below(draft.v), 1));
    let known = draft.reading(record);
    let line = match random.below(4) {
        0 => draft.line(ADD, unknown, known),
        1 => draft.line(SUBTRACT, known, unknown),
        2 => draft.stated(unknown, record),
        _ => draft.line(LESS_THAN, known, unknown),
    };
    draft.power(line, total / exponent + random.range(0, 1));
    draft
}

pub fn row(random: &mut Random, v: usize) -> Draft {
    let mut draft = Draft::new(v.max(2));
    let [other, unknown, target] = three_columns(random, draft.v);
    let first = draft.reading(one(other, 1));
    let made = product(random, &mut draft, unknown, target);
    draft.line(ADD, first, made.line);
    draft.stated(made.reading, made.record);
    draft
}

/// A row near the limit after a round, which a later round would change again:
/// other = unknown^n, then unknown^p target^(p+1) base^k = 1.
pub fn row_between(random: &mut Random, v: usize) -> Draft {
    let mut draft = Draft::new(v.max(3));
    let [other, unknown, target] = three_unknowns(random, draft.v);
    let p = random.range(2, 6);
    let (n, k) = match random.below(3) {
        0 => (LIMIT / (p + 2), p * (p + 2) + p - 1),
        1 => (LIMIT / (p + 2) + 1, p * (p + 2) + p - 1),
        _ => (random.range(LIMIT / 12, LIMIT / 2), random.range(-64, 64)),
    };
    let left = draft.reading(one(other, 1));
    let reading = draft.reading(one(unknown, 1));
    let right = draft.power(reading, n);
    draft.line(ADD, left, right);
    let mut record = one(unknown, p as i8);
    record[target] = (p + 1) as i8;
    if random.one_in(2) {
        record = record.map(|x| 2 * x);
    }
    let line = draft.reading(record);
    draft.stated(line, one(random.base(), -k as i8));
    draft
}

/// A clash in step 4 where step 5 would make a wide row.
pub fn clash_before_row(random: &mut Random, v: usize) -> Draft {
    let mut draft = row(random, v);
    let last = draft.records.len() - 1;
    let mut squared = draft.records[last].map(|x| 2 * x.min(31));
    squared[random.base()] += 1;
    draft.records[last] = squared;
    let [_, reading, _, _] = draft.lines.pop().unwrap_or_default();
    let power = draft.line(MULTIPLY, reading, reading);
    draft.line(STATED, power, last as u8);
    draft
}

pub fn channel(random: &mut Random, v: usize) -> Draft {
    let mut draft = Draft::new(v.max(2));
    let [unknown, _, target] = three_columns(random, draft.v);
    let total = near_limit(random);
    let exponent = random.range(2, 64);
    let n = total / exponent + random.range(0, 1);
    let left = draft.reading(one(unknown, 1));
    let reading = draft.reading(one(target, 1));
    let right = draft.power(reading, n);
    draft.line(SUBTRACT, left, right);
    let mut record = one(unknown, exponent as i8);
    record[target] = (total - n * exponent) as i8;
    if random.one_in(2) {
        draft.reading(record);
    } else {
        let index = draft.record(record);
        draft.channels.push(index);
    }
    draft
}

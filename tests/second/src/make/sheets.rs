//! Random sheets of every kind, with their rooms and questions.

use super::agreement::Agreement;
use super::broken::broken;
use super::draft::*;
use super::random::Random;
use super::{room, rounds, unknowns, wide};
use crate::pack::{Case, Question};

pub fn sheet_case(random: &mut Random, small: bool) -> Case {
    let draft = well_formed(random, small);
    let sheet = if random.below(10) < 3 {
        broken(random, &draft)
    } else {
        draft.bytes()
    };
    let most = if small { 2 } else { 4 };
    let questions = (0..random.range(0, most))
        .map(|_| question(random, draft.lines.len()))
        .collect();
    Case::Sheet {
        room: room(random, 32 * draft.v),
        questions,
        sheet,
    }
}

fn question(random: &mut Random, n: usize) -> Question {
    let n = n as u32;
    let line = match random.below(12) {
        0 => n,
        1 => random.pick(&[n + 1, 256, 257, 65_536, u32::MAX]),
        2..=5 => n.saturating_sub(1),
        _ => random.below(n.max(1) as usize) as u32,
    };
    let room = room(random, 32);
    Question { line, room }
}

fn well_formed(random: &mut Random, small: bool) -> Draft {
    let v = unknowns(random, small);
    match random.below(50) {
        0..=16 => agreeing(random, v, small).draft,
        17..=19 => clash(random, v, small, Agreement::clash_in_step_1),
        20..=22 => clash(random, v, small, Agreement::clash_in_step_4),
        23 | 24 => wide::line_unit(random, v),
        25 | 26 => wide::equation(random, v),
        27 | 28 => wide::replaced(random, v, true),
        29 => wide::parts(random, v, true),
        30 | 31 => wide::row(random, v),
        32 => wide::row_between(random, v),
        33 => wide::clash_before_row(random, v),
        34 | 35 => wide::replaced(random, v, false),
        36 => wide::parts(random, v, false),
        37 | 38 => wide::channel(random, v),
        39 => wide::side(random, v),
        40..=43 => rounds::pairs(random, v),
        44 => squarings(random, v),
        45 => full(random, if small { v } else { 24 }),
        _ => any_lines(random, v, small),
    }
}

fn agreeing(random: &mut Random, v: usize, small: bool) -> Agreement {
    let mut agreement = Agreement::new(random, v);
    let most = if small { 3 } else { 16 };
    let equations = random.range(0, (v as i64 + 2).min(most));
    for _ in 0..equations {
        agreement.add_equation(random);
    }
    agreement
}

fn clash(
    random: &mut Random,
    v: usize,
    small: bool,
    add_clash: fn(&mut Agreement, &mut Random),
) -> Draft {
    let mut agreement = agreeing(random, v, small);
    add_clash(&mut agreement, random);
    if random.one_in(2) {
        agreement.add_equation(random);
    }
    agreement.draft
}

/// The longest sheet, with every count at its limit.
fn full(random: &mut Random, v: usize) -> Draft {
    let mut draft = agreeing(random, v, v < 24).draft;
    while draft.records.len() < 64 {
        let exponent = random.pick(&[64, -64, 1, 0]);
        draft.record(one(random.column(v), exponent));
    }
    while draft.channels.len() < 16 {
        draft.channels.push(random.below(64) as u8);
    }
    while draft.lines.len() < 256 {
        let lines = draft.lines.len();
        match random.below(3) {
            0 if lines > 0 => draft.line(DIVIDE, random.below(lines) as u8, (lines - 1) as u8),
            1 => draft.line(READING, random.below(16) as u8, 0),
            _ => draft.line(NUMBER, random.bits() as u8, random.bits() as u8),
        };
    }
    draft
}

/// A reading squared again and again, about until the limit.
fn squarings(random: &mut Random, v: usize) -> Draft {
    let mut draft = Draft::new(v);
    let exponent = random.pick(&[64, -64, 63, 1]);
    let mut line = draft.reading(one(random.base(), exponent));
    for _ in 0..random.range(19, 28) {
        line = draft.line(MULTIPLY, line, line);
    }
    draft
}

fn any_lines(random: &mut Random, v: usize, small: bool) -> Draft {
    let mut draft = Draft::new(v);
    for _ in 0..random.range(1, if small { 4 } else { 12 }) {
        let mut record = [0; 32];
        for _ in 0..random.below(4) {
            record[random.column(v)] = random.range(-4, 4) as i8;
        }
        draft.reading(record);
    }
    for _ in 0..random.below(if small { 8 } else { 40 }) {
        let line = any_line(random, &draft);
        draft.lines.push(line);
    }
    draft
}

fn any_line(random: &mut Random, draft: &Draft) -> [u8; 4] {
    let mut earlier = || random.below(draft.lines.len()) as u8;
    let (a, b) = (earlier(), earlier());
    match random.below(14) {
        0 => [NUMBER, random.bits() as u8, random.bits() as u8, 0],
        1 => [READING, random.below(draft.channels.len()) as u8, 0, 0],
        2 => [ADD, a, b, 0],
        3 => [SUBTRACT, a, b, 0],
        4 => [LESS_THAN, a, b, 0],
        5 if draft.v > 0 => [ROOT, a, random.below(draft.v) as u8, 0],
        6 => [STATED, a, random.below(draft.records.len()) as u8, 0],
        7..=9 => [DIVIDE, a, b, 0],
        _ => [MULTIPLY, a, b, 0],
    }
}

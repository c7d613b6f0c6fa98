//! Random systems of every kind for the elimination call.

use super::random::Random;
use super::rounds::euclid_pair;
use super::wide::LIMIT;
use super::wide_systems::*;
use super::{room, unknowns};
use crate::pack::Case;

pub type Equation = [i64; 32];

pub fn system_case(random: &mut Random, small: bool) -> Case {
    let kind = random.below(16);
    let fewest = match kind {
        5 | 14 => 1,
        9..=13 => 3,
        _ => 0,
    };
    let v = unknowns(random, small).max(fewest);
    let most = if small { 3 } else { v as i64 + 2 };
    let equations = match kind {
        0..=3 => agreeing(random, v, most),
        4 => clash_in_step_1(random, v, most),
        5 => clash_in_step_4(random, v, most),
        6 | 7 => pairs(random, v, most),
        8 => wide_equation(random, v, most),
        9 => wide_replaced(random, v),
        10 => wide_parts(random, v),
        11 => wide_row(random, v),
        12 => wide_row_between(random, v),
        13 => clash_before_wide_row(random, v),
        14 => large(random, v, most),
        _ => dense(random, v, most),
    };
    let numbers: Vec<i32> = equations.concat().iter().map(|&x| x as i32).collect();
    let room = room(random, 32 * v);
    let v = v as u32;
    let mut case = Case::System { room, v, numbers };
    if random.one_in(6) {
        spoil(random, &mut case);
    }
    case
}

/// Equations that hidden units satisfy.
pub fn agreeing(random: &mut Random, v: usize, most: i64) -> Vec<Equation> {
    let mut hidden = vec![[0; 8]; v];
    for _ in 0..random.range(0, 3) {
        let column = random.below(8);
        for unit in &mut hidden {
            unit[column] = random.range(-3, 3);
        }
    }
    let mut equations = Vec::new();
    let size = random.pick(&[1, 3, 10, 100, 5_000, 1_000_000]);
    for _ in 0..random.range(0, most) {
        let mut equation = [0; 32];
        for _ in 0..random.range(1, 3).min(v as i64) {
            equation[random.below(v)] = random.range(-size, size);
        }
        for column in 0..8 {
            let values = (0..v).map(|j| equation[j] * hidden[j][column]);
            equation[24 + column] = -values.sum::<i64>();
        }
        equations.push(equation);
    }
    equations
}

fn clash_in_step_1(random: &mut Random, v: usize, most: i64) -> Vec<Equation> {
    let mut equations = agreeing(random, v, most);
    let mut clashing = [0; 32];
    for equation in &equations {
        let times = random.range(-1, 1);
        for (sum, x) in clashing.iter_mut().zip(equation) {
            *sum += times * x;
        }
    }
    clashing[random.base()] += random.sign();
    equations.push(clashing);
    equations
}

fn clash_in_step_4(random: &mut Random, v: usize, most: i64) -> Vec<Equation> {
    let mut equations = agreeing(random, v, most);
    let multiple = random.range(2, 7);
    let mut clashing = [0; 32];
    for _ in 0..random.range(1, 3) {
        clashing[random.below(v)] = multiple * random.range(-20, 20);
    }
    clashing[random.base()] = multiple * random.range(-3, 3);
    clashing[random.base()] += random.sign();
    equations.push(clashing);
    equations
}

fn pairs(random: &mut Random, v: usize, most: i64) -> Vec<Equation> {
    let mut equations = Vec::new();
    for pair in 0..(v / 2).min(most as usize) {
        let size = random.pick(&[100, 1_000_000, LIMIT, LIMIT]);
        let (larger, smaller) = euclid_pair(random, size);
        let mut equation = [0; 32];
        equation[2 * pair] = larger * random.sign();
        equation[2 * pair + 1] = smaller * random.sign();
        if random.one_in(2) {
            equation.swap(2 * pair, 2 * pair + 1);
        }
        equation[random.base()] = random.range(-1, 1);
        equations.push(equation);
    }
    equations
}

fn large(random: &mut Random, v: usize, most: i64) -> Vec<Equation> {
    let mut equations = Vec::new();
    for _ in 0..random.range(1, most) {
        let mut equation = [0; 32];
        for _ in 0..random.range(2, 4) {
            equation[random.below(v)] = random.range(-LIMIT, LIMIT);
        }
        equations.push(equation);
    }
    equations
}

fn dense(random: &mut Random, v: usize, most: i64) -> Vec<Equation> {
    let mut equations = Vec::new();
    for _ in 0..random.range(1, most) {
        let mut equation = [0; 32];
        for exponent in &mut equation[..v] {
            *exponent = random.range(-9, 9);
        }
        equation[random.base()] = random.range(-2, 2);
        equations.push(equation);
    }
    equations
}

/// Makes the boundary of 3, 4 or 5, on either side of it, now and then of two at once.
fn spoil(random: &mut Random, case: &mut Case) {
    let Case::System { v, numbers, .. } = case else {
        return;
    };
    for _ in 0..random.range(1, 2) {
        match random.below(4) {
            0 => *v = random.pick(&[24, 25, 32, 1 << 31, u32::MAX]),
            1 => {
                let cut = random.pick(&[1, 31]).min(numbers.len());
                numbers.truncate(numbers.len() - cut);
            }
            2 => numbers.extend(vec![0; random.pick(&[1, 31, 32, 33])]),
            _ if *v < 24 && numbers.len() >= 32 => {
                let equation = random.below(numbers.len() / 32);
                let column = random.pick(&[*v as usize, 23]);
                numbers[32 * equation + column] = random.pick(&[1, -1, i32::MIN]);
            }
            _ => {}
        }
    }
}

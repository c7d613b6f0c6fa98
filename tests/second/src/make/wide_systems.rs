//! Systems at the limit and just past it.

use super::random::Random;
use super::systems::{agreeing, Equation};
use super::wide::{near_limit, three_columns, three_unknowns, LIMIT};

fn equation(factors: &[(usize, i64)]) -> Equation {
    let mut equation = [0; 32];
    for &(column, exponent) in factors {
        equation[column] = exponent;
    }
    equation
}

/// A number past the limit or at it; now and then its unknown is already solved as 1.
pub fn wide_equation(random: &mut Random, v: usize, most: i64) -> Vec<Equation> {
    let mut equations = agreeing(random, v, most);
    let column = random.column(v);
    let edge = [LIMIT, LIMIT + 1, i64::from(i32::MAX)];
    let exponent = match random.below(3) {
        0 => i64::from(i32::MIN),
        1 => random.pick(&edge),
        _ => -random.pick(&edge),
    };
    if column < v && random.one_in(2) {
        return vec![equation(&[(column, 1)]), equation(&[(column, exponent)])];
    }
    let place = random.below(equations.len() + 1);
    equations.insert(place, equation(&[(column, exponent)]));
    equations
}

/// unknown = target^e, and unknown^n target^d = 1 with ne + d near the limit.
fn product(random: &mut Random, unknown: usize, target: usize) -> [Equation; 2] {
    let total = near_limit(random);
    let exponent = match random.below(2) {
        0 => random.range(2, 1000),
        _ => random.range(1000, 100_000),
    };
    let n = (total / exponent + random.range(0, 1)).min(LIMIT);
    let rest = total - n * exponent;
    [
        equation(&[(unknown, 1), (target, -exponent)]),
        equation(&[(unknown, n), (target, rest.min(LIMIT))]),
    ]
}

pub fn wide_replaced(random: &mut Random, v: usize) -> Vec<Equation> {
    let [unknown, _, target] = three_columns(random, v);
    product(random, unknown, target).to_vec()
}

/// As before, of two parts that are each far past the limit.
pub fn wide_parts(random: &mut Random, v: usize) -> Vec<Equation> {
    let [first, second, target] = three_columns(random, v);
    let (e, f) = (random.range(1000, LIMIT), random.range(1000, LIMIT));
    let total = random.pick(&[0, 1, LIMIT, LIMIT + 1, -LIMIT]);
    let n = random.range(LIMIT / e + 1, LIMIT);
    let m = ((n * e - total) / f).clamp(1, LIMIT);
    let rest = (total - n * e + m * f).clamp(-LIMIT, LIMIT);
    vec![
        equation(&[(first, 1), (target, -e)]),
        equation(&[(second, 1), (target, -f)]),
        equation(&[(first, n), (second, -m), (target, rest)]),
    ]
}

pub fn wide_row(random: &mut Random, v: usize) -> Vec<Equation> {
    let [other, unknown, target] = three_columns(random, v);
    let [first, second] = product(random, unknown, target);
    let mut second = second.map(|x| -x);
    second[other] = 1;
    vec![second, first]
}

/// A row near the limit after a round, which a later round would change again.
pub fn wide_row_between(random: &mut Random, v: usize) -> Vec<Equation> {
    let [other, unknown, target] = three_unknowns(random, v);
    let p = random.range(2, 9);
    let (n, k) = match random.below(3) {
        0 => (LIMIT / (p + 2), p * (p + 2) + p - 1),
        1 => (LIMIT / (p + 2) + 1, p * (p + 2) + p - 1),
        _ => (random.range(LIMIT / 12, LIMIT / 2), random.range(-99, 99)),
    };
    let times = random.range(1, 2);
    vec![
        equation(&[(other, 1), (unknown, -n)]),
        equation(&[
            (unknown, times * p),
            (target, times * (p + 1)),
            (random.base(), k),
        ]),
    ]
}

/// A clash in step 4 where step 5 would make a wide row.
pub fn clash_before_wide_row(random: &mut Random, v: usize) -> Vec<Equation> {
    let mut equations = wide_row(random, v);
    equations[1] = equations[1].map(|x| 2 * x);
    equations[1][random.base()] += random.sign();
    equations
}

//! Demand 3, judged on random small systems and sheets by another method.

use second::judge::{first_without_solution, judge, Matrix};
use second::make::{make, Kind, Random};
use second::{check, eliminate, lent_table, line_rule, solve_sheet, solve_system};
use second::{Answer, Case, Cause, Sheet};

const SYSTEMS: u64 = 100_000;

struct System {
    v: usize,
    equations: Matrix,
}

impl System {
    fn numbers(&self) -> Vec<i32> {
        self.equations.concat().iter().map(|&x| x as i32).collect()
    }

    /// Whether constants stand in two columns or more.
    fn has_two_bases(&self) -> bool {
        let used = |base: &usize| self.equations.iter().any(|equation| equation[*base] != 0);
        (24..32).filter(used).count() >= 2
    }
}

/// Equations that hidden units satisfy, their unknowns to multiples of `multiple`.
fn agreeing(random: &mut Random, v: usize, count: usize, multiple: i128) -> Matrix {
    let bases = [random.base(), random.base(), random.base()];
    let hidden: Vec<[i64; 3]> = (0..v)
        .map(|_| [0; 3].map(|_| random.range(-3, 3)))
        .collect();
    let mut equations = Matrix::new();
    for _ in 0..count {
        let mut equation = vec![0; 32];
        for exponent in &mut equation[..v] {
            *exponent = multiple * i128::from(random.range(-7, 7));
        }
        for (i, &base) in bases.iter().enumerate() {
            let products = hidden.iter().zip(&equation);
            let sum: i128 = products.map(|(unit, x)| i128::from(unit[i]) * x).sum();
            equation[base] = -sum;
        }
        equations.push(equation);
    }
    equations
}

fn random_system(random: &mut Random) -> System {
    let (v, count) = (random.below(3) + 3, random.below(3) + 1);
    match random.below(4) {
        0 | 1 => System {
            v,
            equations: agreeing(random, v, count.min(v - 2), 1),
        },
        2 => {
            let mut equations = agreeing(random, v, count, 2 + v as i128 % 2);
            let place = random.below(count);
            equations[place][random.base()] += i128::from(random.sign());
            System { v, equations }
        }
        _ => {
            let mut equations = agreeing(random, v, count, 1);
            let mut sum = vec![0; 32];
            for equation in &equations {
                let times = i128::from(random.range(-2, 2));
                sum = sum
                    .iter()
                    .zip(equation)
                    .map(|(x, y)| x + times * y)
                    .collect();
            }
            sum[random.base()] += i128::from(random.range(-1, 1));
            equations.insert(random.below(count + 1), sum);
            System { v, equations }
        }
    }
}

#[derive(Debug, Default)]
struct Kinds {
    accepted: u64,
    clashes: u64,
    clashes_in_step_4: u64,
}

impl Kinds {
    /// Counts a judged system with constants in two columns or more.
    fn add(&mut self, system: &System) {
        match solve_system(system.v as u32, &system.numbers(), 32 * system.v) {
            Ok(table) => {
                let free = table.free.iter().filter(|&&free| free).count();
                let rounds = table.rounds.iter().copied().max();
                self.accepted += u64::from(free >= 2 && rounds >= Some(2));
            }
            Err(refusal) => {
                self.clashes += 1;
                self.clashes_in_step_4 += u64::from(refusal.cause == Cause::ClashStep4);
            }
        }
    }
}

#[test]
fn a_hundred_thousand_systems() {
    let mut kinds = Kinds::default();
    for index in 0..SYSTEMS {
        let system = random_system(&mut Random::new(3, index));
        let mut table = lent_table(32 * system.v as u32);
        let answer = eliminate(system.v as u32, &system.numbers(), &mut table);
        let judged = judge(system.v, &system.equations, answer, &table);
        assert_eq!(judged, Ok(()), "system {index}: {:?}", system.equations);
        if system.has_two_bases() {
            kinds.add(&system);
        }
    }
    assert!(kinds.accepted >= 30_000, "{kinds:?}");
    assert!(kinds.clashes >= 20_000, "{kinds:?}");
    assert!(kinds.clashes_in_step_4 >= 5_000, "{kinds:?}");
}

/// The equations of a sheet, each with its line.
fn equations_of(sheet: &Sheet) -> (Matrix, Vec<u32>) {
    let (mut units, mut equations, mut places) = (Vec::new(), Vec::new(), Vec::new());
    for (place, &line) in sheet.lines.iter().enumerate() {
        let (unit, equation) = line_rule(sheet, &units, line);
        units.push(unit);
        if let Some(equation) = equation {
            equations.push(equation);
            places.push(place as u32);
        }
    }
    (equations, places)
}

/// Judges a sheet that is accepted or clashes; gives whether it was one.
fn judge_sheet(bytes: &[u8]) -> Result<bool, String> {
    let Ok(sheet) = Sheet::read(bytes) else {
        return Ok(false);
    };
    if solve_sheet(&sheet).is_err_and(|refusal| refusal.cause.number() == 9) {
        return Ok(false);
    }
    let (equations, places) = equations_of(&sheet);
    let mut table = lent_table(32 * sheet.v as u32);
    let mut answer = check(bytes, &mut table);
    if answer.number == 10 {
        let equation = places.iter().position(|&place| place == answer.place);
        answer.place = equation.ok_or("the line named has no equation")? as u32;
    }
    judge(sheet.v, &equations, answer, &table).map(|()| true)
}

#[test]
fn small_sheets() {
    let mut judged = 0;
    for (index, case) in make(11, 6000, Kind::Sheets, true).iter().enumerate() {
        if let Case::Sheet { sheet, .. } = case {
            let result = judge_sheet(sheet);
            assert!(result.is_ok(), "sheet {index}: {result:?}");
            judged += u32::from(result == Ok(true));
        }
    }
    assert!(judged >= 2500, "{judged}");
}

fn accepted(mask: u32) -> Answer {
    Answer {
        number: 0,
        place: 0,
        rounds: 2,
        mask,
    }
}

/// a^4 b^6 = m^2, whose table is a = a^3 m^2, b = a^-2 m^-1.
fn example() -> (Matrix, Vec<i32>) {
    let mut equation = vec![0; 32];
    (equation[0], equation[1], equation[25]) = (4, 6, -2);
    let mut table = vec![0; 64];
    (table[0], table[25], table[32], table[57]) = (3, 2, -2, -1);
    (vec![equation], table)
}

#[test]
fn the_judge_refuses_wrong_tables() {
    let (equations, right) = example();
    let judged = |mask: u32, table: &[i32]| judge(2, &equations, accepted(mask), table);
    assert_eq!(judged(1, &right), Ok(()));

    let with = |changes: &[(usize, i32)]| {
        let mut table = right.clone();
        for &(index, number) in changes {
            table[index] = number;
        }
        table
    };
    // Too special: a = m^2, b = m^-1.
    assert!(judged(1, &with(&[(0, 0), (32, 0)])).is_err());
    assert!(judged(0, &with(&[(0, 0), (32, 0)])).is_err());
    // Only every second solution: a = a^6 m^2, b = a^-4 m^-1.
    assert!(judged(1, &with(&[(0, 6), (32, -4)])).is_err());
    // Another solution for the constants, still most general.
    assert_eq!(judged(1, &with(&[(25, -1), (57, 1)])), Ok(()));
    // Rows exchanged, a wrong constant, a wrong mask, a needless second choice.
    assert!(judged(1, &[&right[32..], &right[..32]].concat()).is_err());
    assert!(judged(1, &with(&[(25, 1)])).is_err());
    assert!(judged(2, &right).is_err());
    assert!(judged(3, &with(&[(1, 3), (33, -2)])).is_err());
    // The starting table.
    let mut start = vec![0; 64];
    (start[0], start[33]) = (1, 1);
    assert!(judged(3, &start).is_err());
}

#[test]
fn the_judge_refuses_wrong_places() {
    let (mut equations, table) = example();
    let clash = |place: u32| Answer {
        number: 10,
        place,
        rounds: 0,
        mask: 0,
    };
    assert_eq!(first_without_solution(2, &equations), None);
    assert!(judge(2, &equations, clash(0), &table).is_err());
    // a^2 b^3 = s contradicts the first; a^2 = m alone would clash too.
    let mut second = vec![0; 32];
    (second[0], second[1], second[24]) = (2, 3, -1);
    let mut third = vec![0; 32];
    (third[0], third[25]) = (2, -1);
    equations.extend([second, third]);
    assert_eq!(first_without_solution(2, &equations), Some(1));
    assert_eq!(judge(2, &equations, clash(1), &table), Ok(()));
    assert!(judge(2, &equations, clash(0), &table).is_err());
    assert!(judge(2, &equations, clash(2), &table).is_err());
    assert!(judge(2, &equations, accepted(1), &table).is_err());
}

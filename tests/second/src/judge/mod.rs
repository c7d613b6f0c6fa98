//! Demand 3, judged by the diagonal form and by nothing of the elimination.

mod diagonal;

use crate::answer::Answer;
use diagonal::plus_product;
pub use diagonal::{Diagonal, Matrix};

const WIDTH: usize = 32;
const FIRST_BASE: usize = 24;

/// Says what is wrong with an answer to a system, if anything is.
/// It judges acceptances and clashes.
pub fn judge(v: usize, equations: &Matrix, answer: Answer, table: &[i32]) -> Result<(), String> {
    let first = first_without_solution(v, equations);
    match (answer.number, first) {
        (0, None) => judge_table(v, equations, answer.mask, table),
        (10, Some(first)) if first == answer.place as usize => Ok(()),
        (number, _) => Err(format!(
            "answer {number} at {}, first equation without a solution: {first:?}",
            answer.place
        )),
    }
}

/// The first equation such that it and those before it have no common solution.
pub fn first_without_solution(v: usize, equations: &Matrix) -> Option<usize> {
    (0..equations.len()).find(|&last| {
        let so_far = &equations[..=last];
        let unknowns = so_far.iter().map(|equation| equation[..v].to_vec());
        let form = Diagonal::of(&unknowns.collect(), v);
        !(FIRST_BASE..WIDTH).all(|base| {
            let target: Vec<i128> = so_far.iter().map(|equation| -equation[base]).collect();
            form.solvable(&target)
        })
    })
}

fn judge_table(v: usize, equations: &Matrix, mask: u32, table: &[i32]) -> Result<(), String> {
    let numbers: Vec<i128> = table.iter().map(|&x| i128::from(x)).collect();
    let rows: Matrix = numbers
        .chunks(WIDTH)
        .take(v)
        .map(<[i128]>::to_vec)
        .collect();
    let free: Vec<usize> = (0..FIRST_BASE).filter(|j| mask >> j & 1 == 1).collect();
    let is_solved = |column: &usize| *column < FIRST_BASE && !free.contains(column);
    if rows
        .iter()
        .any(|row| (0..WIDTH).filter(is_solved).any(|c| row[c] != 0))
    {
        return Err("a column that is not free is not 0".to_string());
    }
    if !every_choice_is_a_solution(equations, &rows) {
        return Err("a choice gives no solution".to_string());
    }
    let columns = |row: &Vec<i128>| free.iter().map(|&j| row[j]).collect();
    let choices = Diagonal::of(&rows.iter().map(columns).collect(), free.len());
    if choices.rank() < free.len() {
        return Err("two choices give the same units".to_string());
    }
    let unknowns = equations.iter().map(|equation| equation[..v].to_vec());
    let differences = Diagonal::of(&unknowns.collect(), v).kernel();
    if !differences.iter().all(|x| choices.solvable(x)) {
        return Err("a solution comes from no choice".to_string());
    }
    Ok(())
}

/// With the rows put in, each equation is 0 in every column.
fn every_choice_is_a_solution(equations: &Matrix, rows: &Matrix) -> bool {
    equations.iter().all(|equation| {
        (0..WIDTH).all(|column| {
            let own = if column < FIRST_BASE {
                0
            } else {
                equation[column]
            };
            let products = equation.iter().zip(rows);
            products.fold(own, |sum, (x, row)| plus_product(sum, *x, row[column])) == 0
        })
    })
}

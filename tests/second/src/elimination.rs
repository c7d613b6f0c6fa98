//! Document 01, "Elimination", step by step over lists of rows.

use crate::answer::{refuse_if, Answer, Cause, Refusal};

pub const COLUMNS: usize = 32;
pub const UNKNOWNS: usize = 24;
pub const LIMIT: i128 = 100_000_000;

pub type Row = Vec<i128>;

pub fn past_limit(row: &Row) -> bool {
    row.iter().any(|x| x.abs() > LIMIT)
}

pub struct Table {
    pub rows: Vec<Row>,
    pub free: Vec<bool>,
    /// The rounds of each equation so far.
    pub rounds: Vec<u32>,
}

impl Table {
    pub fn start(v: usize) -> Table {
        let mut rows = vec![vec![0; COLUMNS]; v];
        for (j, row) in rows.iter_mut().enumerate() {
            row[j] = 1;
        }
        Table {
            rows,
            free: vec![true; v],
            rounds: Vec::new(),
        }
    }

    pub fn replace_unknowns(&self, unit: &Row) -> Row {
        let mut result = vec![0; COLUMNS];
        result[UNKNOWNS..].copy_from_slice(&unit[UNKNOWNS..]);
        for (j, row) in self.rows.iter().enumerate() {
            for column in 0..COLUMNS {
                result[column] += unit[j] * row[column];
            }
        }
        result
    }

    pub fn solve(&mut self, equation: &Row) -> Result<(), Cause> {
        if past_limit(equation) {
            return Err(Cause::WideEquation);
        }
        let mut equation = self.replace_unknowns(equation);
        if past_limit(&equation) {
            return Err(Cause::WideReplaced);
        }
        let mut rounds = 0;
        while let Some(picked) = pick(&equation) {
            rounds += 1;
            equation = self.round(equation, picked)?;
        }
        if has_base(&equation) {
            return Err(Cause::ClashStep1);
        }
        self.rounds.push(rounds);
        Ok(())
    }

    /// Steps 2 to 6. Gives what remains of the equation: nothing after step 5.
    fn round(&mut self, mut equation: Row, picked: usize) -> Result<Row, Cause> {
        if equation[picked] < 0 {
            equation = equation.iter().map(|x| -x).collect();
        }
        let p = equation[picked];
        let mut quotients: Row = equation.iter().map(|x| x.div_euclid(p)).collect();
        let mut remainders: Row = equation.iter().map(|x| x.rem_euclid(p)).collect();
        quotients[picked] = 0;
        let unknown_left = has_unknown(&remainders);
        if !unknown_left && has_base(&remainders) {
            return Err(Cause::ClashStep4);
        }
        for row in &mut self.rows {
            let exponent = row[picked];
            for column in 0..COLUMNS {
                row[column] -= exponent * quotients[column];
            }
            if !unknown_left {
                row[picked] = 0;
            }
        }
        if self.rows.iter().any(past_limit) {
            return Err(Cause::WideRow);
        }
        if unknown_left {
            remainders[picked] = p;
        } else {
            self.free[picked] = false;
        }
        Ok(remainders)
    }

    pub fn mask(&self) -> u32 {
        let free = self.free.iter().enumerate();
        free.map(|(j, &is_free)| u32::from(is_free) << j).sum()
    }

    pub fn answer(&self) -> Answer {
        Answer {
            number: 0,
            place: 0,
            rounds: self.rounds.iter().sum(),
            mask: self.mask(),
        }
    }

    pub fn write(&self, lent: &mut [i32]) {
        for (row, lent_row) in self.rows.iter().zip(lent.chunks_mut(COLUMNS)) {
            write_row(row, lent_row);
        }
    }
}

pub fn write_row(row: &Row, lent: &mut [i32]) {
    for (number, lent_number) in row.iter().zip(lent) {
        *lent_number = i32::try_from(*number).expect("a row within the limit");
    }
}

fn has_unknown(row: &Row) -> bool {
    row[..UNKNOWNS].iter().any(|&x| x != 0)
}

fn has_base(row: &Row) -> bool {
    row[UNKNOWNS..].iter().any(|&x| x != 0)
}

/// The unknown of the smallest nonzero size, the lowest column on a tie.
fn pick(equation: &Row) -> Option<usize> {
    let unknowns = (0..UNKNOWNS).filter(|&column| equation[column] != 0);
    unknowns.min_by_key(|&column| (equation[column].abs(), column))
}

/// The elimination call for other bench tools.
pub fn eliminate(v: u32, numbers: &[i32], table: &mut [i32]) -> Answer {
    match solve_system(v, numbers, table.len()) {
        Ok(solved) => {
            solved.write(table);
            solved.answer()
        }
        Err(refusal) => refusal.answer(),
    }
}

pub fn solve_system(v: u32, numbers: &[i32], room: usize) -> Result<Table, Refusal> {
    let v = v as usize;
    refuse_if(v > UNKNOWNS, Cause::TooManyUnknowns, 0)?;
    refuse_if(
        !numbers.len().is_multiple_of(COLUMNS),
        Cause::PartOfEquation,
        0,
    )?;
    let numbers: Row = numbers.iter().map(|&x| i128::from(x)).collect();
    let equations: Vec<Row> = numbers.chunks(COLUMNS).map(<[i128]>::to_vec).collect();
    for (place, equation) in equations.iter().enumerate() {
        let above = equation[v..UNKNOWNS].iter().any(|&x| x != 0);
        refuse_if(above, Cause::ColumnAboveUnknowns, place)?;
    }
    refuse_if(room < COLUMNS * v, Cause::TableTooShort, 0)?;
    let mut table = Table::start(v);
    for (place, equation) in equations.iter().enumerate() {
        let solved = table.solve(equation);
        solved.map_err(|cause| Refusal { cause, place })?;
    }
    Ok(table)
}

//! The solver once more, with document 01's ways to go wrong as switches.

use second::{line_rule, Answer, Sheet, LIMIT};

#[derive(Clone, Copy, Debug, PartialEq, Eq)]
pub enum Flaw {
    None,
    /// Dividing as the machine does.
    MachineDivision,
    /// Testing only the bases, while an unknown still has a remainder.
    BasesOnly,
    /// Solving the raw equation without replacing solved unknowns.
    RawEquation,
    /// Picking the first unknown in every round: it may not end.
    FirstUnknown,
    /// Picking the first unknown in an equation's first round only.
    FirstUnknownAtFirst,
    /// Picking the highest column on a tie.
    LastOnTie,
    /// Printing row 0 as U0.
    RowZeroAsU0,
    /// Numbering places from one in the answer.
    PlacesFromOne,
}

pub const FLAWS: [Flaw; 8] = [
    Flaw::MachineDivision,
    Flaw::BasesOnly,
    Flaw::RawEquation,
    Flaw::FirstUnknown,
    Flaw::FirstUnknownAtFirst,
    Flaw::LastOnTie,
    Flaw::RowZeroAsU0,
    Flaw::PlacesFromOne,
];

/// The number this variant gives when it sees that it would not end.
const NO_END: u32 = 99;

type Row = [i128; 32];

struct Work {
    flaw: Flaw,
    rows: Vec<Row>,
    mask: u32,
    rounds: u32,
}

fn wide(row: &[i128]) -> bool {
    row.iter().any(|x| x.abs() > LIMIT)
}

impl Work {
    fn new(flaw: Flaw, v: usize) -> Work {
        let mut rows = vec![[0; 32]; v];
        for (j, row) in rows.iter_mut().enumerate() {
            row[j] = 1;
        }
        Work {
            flaw,
            rows,
            mask: (1 << v) - 1,
            rounds: 0,
        }
    }

    fn put_in(&self, unit: &[i128]) -> Row {
        let mut sum = [0; 32];
        for (c, x) in sum.iter_mut().enumerate() {
            *x = if c < 24 { 0 } else { unit[c] };
            for (j, row) in self.rows.iter().enumerate() {
                *x += unit[j] * row[c];
            }
        }
        sum
    }

    /// The number that ends the work, if it ends.
    fn solve(&mut self, raw: &[i128]) -> Option<u32> {
        let mut equation: Row = raw.try_into().expect("32 numbers");
        if wide(&equation) {
            return Some(9);
        }
        if self.flaw != Flaw::RawEquation {
            equation = self.put_in(raw);
        }
        if wide(&equation) {
            return Some(9);
        }
        for round in 0..200 {
            let Some(picked) = self.pick(&equation, round) else {
                let clash = equation.iter().any(|&x| x != 0);
                return clash.then_some(10);
            };
            self.rounds += 1;
            if let Some(number) = self.round(&mut equation, picked) {
                return Some(number);
            }
        }
        Some(NO_END)
    }

    fn pick(&self, equation: &Row, round: u32) -> Option<usize> {
        let mut found = (0..24).filter(|&c| equation[c] != 0);
        match self.flaw {
            Flaw::FirstUnknown => found.next(),
            Flaw::FirstUnknownAtFirst if round == 0 => found.next(),
            Flaw::LastOnTie => found.rev().min_by_key(|&c| equation[c].abs()),
            _ => found.min_by_key(|&c| equation[c].abs()),
        }
    }

    fn divide(&self, x: i128, p: i128) -> (i128, i128) {
        if self.flaw == Flaw::MachineDivision || x % p >= 0 {
            (x / p, x % p)
        } else {
            (x / p - 1, x % p + p)
        }
    }

    fn round(&mut self, equation: &mut Row, picked: usize) -> Option<u32> {
        if equation[picked] < 0 {
            *equation = equation.map(|x| -x);
        }
        let p = equation[picked];
        let mut quotients = [0; 32];
        for c in (0..32).filter(|&c| c != picked) {
            (quotients[c], equation[c]) = self.divide(equation[c], p);
        }
        let unknown_left = (0..24).any(|c| c != picked && equation[c] != 0);
        let base_left = equation[24..].iter().any(|&r| r != 0);
        if base_left && (!unknown_left || self.flaw == Flaw::BasesOnly) {
            return Some(10);
        }
        for row in &mut self.rows {
            let power = row[picked];
            for c in 0..32 {
                row[c] -= power * quotients[c];
            }
            row[picked] = if unknown_left { power } else { 0 };
        }
        if !unknown_left {
            equation[picked] = 0;
            self.mask &= !(1 << picked);
        }
        self.rows.iter().any(|row| wide(row)).then_some(9)
    }
}

fn work(flaw: Flaw, sheet: &Sheet) -> Result<Work, (u32, usize)> {
    let mut work = Work::new(flaw, sheet.v);
    let mut units = Vec::new();
    for (place, &line) in sheet.lines.iter().enumerate() {
        let (unit, equation) = line_rule(sheet, &units, line);
        if wide(&unit) {
            return Err((9, place));
        }
        if let Some(number) = equation.and_then(|equation| work.solve(&equation)) {
            return Err((number, place));
        }
        units.push(unit);
    }
    Ok(work)
}

/// The answer with the table's rows, for a lent table that is long enough.
pub fn check(flaw: Flaw, bytes: &[u8]) -> (Answer, Vec<i32>) {
    let solved = Sheet::read(bytes)
        .map_err(|refusal| (refusal.cause.number(), refusal.place))
        .and_then(|sheet| work(flaw, &sheet));
    match solved {
        Ok(work) => {
            let answer = Answer {
                number: 0,
                place: 0,
                rounds: work.rounds,
                mask: work.mask,
            };
            (
                answer,
                work.rows.concat().iter().map(|&x| x as i32).collect(),
            )
        }
        Err((number, place)) => {
            let has_place = [5, 6, 7, 9, 10].contains(&number);
            let from_one = flaw == Flaw::PlacesFromOne && has_place;
            let answer = Answer {
                number,
                place: place as u32 + u32::from(from_one),
                rounds: 0,
                mask: 0,
            };
            (answer, Vec::new())
        }
    }
}

pub fn listing(flaw: Flaw, bytes: &[u8]) -> String {
    let (answer, _) = check(flaw, bytes);
    let solved = Sheet::read(bytes)
        .ok()
        .map(|sheet| (work(flaw, &sheet), sheet));
    if let Some((Ok(work), sheet)) = solved {
        return accepted(&work, &sheet);
    }
    let Answer { number, place, .. } = answer;
    match number {
        5 => format!("refused 5 record {}\n", place + 1),
        6 => format!("refused 6 channel {}\n", place + 1),
        7 | 9 | 10 => format!("refused {number} line {}\n", place + 1),
        _ => format!("refused {number}\n"),
    }
}

fn accepted(work: &Work, sheet: &Sheet) -> String {
    let first = if work.flaw == Flaw::RowZeroAsU0 { 0 } else { 1 };
    let mut text = format!("accepted {} {}\n", work.rounds, work.mask.count_ones());
    for (j, row) in work.rows.iter().enumerate() {
        text += &format!("U{} ={}\n", j + first, factors(row, first));
    }
    for (c, &record) in sheet.channels.iter().enumerate() {
        let unit = work.put_in(&sheet.records[record]);
        text += &match wide(&unit) {
            true => format!("C{} wide\n", c + 1),
            false => format!("C{} ={}\n", c + 1, factors(&unit, first)),
        };
    }
    text
}

fn factors(unit: &Row, first: usize) -> String {
    let mut text = String::new();
    for (c, &exponent) in unit.iter().enumerate().filter(|&(_, &e)| e != 0) {
        text += &match c {
            0..24 => format!(" U{}", c + first),
            _ => format!(
                " {}",
                ["s", "m", "kg", "A", "K", "mol", "cd", "pulse"][c - 24]
            ),
        };
        if exponent != 1 {
            text += &format!("^{exponent}");
        }
    }
    if text.is_empty() {
        return " 1".to_string();
    }
    text
}

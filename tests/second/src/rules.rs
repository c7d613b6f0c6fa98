//! Document 01, "Lines", and the calls that take a sheet.

use crate::answer::{refuse_if, Answer, Cause, Refusal};
use crate::elimination::{past_limit, write_row, Row, Table, COLUMNS};
use crate::sheet::Sheet;

pub struct Solved {
    pub table: Table,
    /// The unit of each line, over the sheet's own unknowns, unsolved.
    pub units: Vec<Row>,
}

/// The unit of a line and its equation, if it has one.
pub fn line_rule(sheet: &Sheet, units: &[Row], line: [u8; 4]) -> (Row, Option<Row>) {
    let [code, a, b, _] = line;
    let (a, b) = (usize::from(a), usize::from(b));
    let no_exponents = vec![0; COLUMNS];
    match code {
        0 => (no_exponents, None),
        1 => (sheet.records[sheet.channels[a]].clone(), None),
        2 | 3 => (units[a].clone(), Some(minus(&units[a], &units[b]))),
        4 => (plus(&units[a], &units[b]), None),
        5 => (minus(&units[a], &units[b]), None),
        6 => {
            let mut unknown = no_exponents;
            unknown[b] = 1;
            let twice = plus(&unknown, &unknown);
            (unknown, Some(minus(&units[a], &twice)))
        }
        7 => (no_exponents, Some(minus(&units[a], &units[b]))),
        8 => {
            let record = &sheet.records[b];
            (record.clone(), Some(minus(&units[a], record)))
        }
        _ => unreachable!("check 7 refuses other codes"),
    }
}

fn plus(left: &Row, right: &Row) -> Row {
    left.iter().zip(right).map(|(x, y)| x + y).collect()
}

fn minus(left: &Row, right: &Row) -> Row {
    left.iter().zip(right).map(|(x, y)| x - y).collect()
}

/// The work on a well-formed sheet: 9 and 10 as it meets them.
pub fn solve_sheet(sheet: &Sheet) -> Result<Solved, Refusal> {
    let mut table = Table::start(sheet.v);
    let mut units = Vec::new();
    for (place, &line) in sheet.lines.iter().enumerate() {
        let (unit, equation) = line_rule(sheet, &units, line);
        refuse_if(past_limit(&unit), Cause::WideUnit, place)?;
        if let Some(equation) = equation {
            let solved = table.solve(&equation);
            solved.map_err(|cause| Refusal { cause, place })?;
        }
        units.push(unit);
    }
    Ok(Solved { table, units })
}

pub fn solve_with_room(bytes: &[u8], room: usize) -> Result<Solved, Refusal> {
    let sheet = Sheet::read(bytes)?;
    refuse_if(room < COLUMNS * sheet.v, Cause::TableTooShort, 0)?;
    solve_sheet(&sheet)
}

pub fn check(bytes: &[u8], table: &mut [i32]) -> Answer {
    match solve_with_room(bytes, table.len()) {
        Ok(solved) => {
            solved.table.write(table);
            solved.table.answer()
        }
        Err(refusal) => refusal.answer(),
    }
}

/// Line k's unit with the final table put in, and that table's answer.
pub fn ask_line(bytes: &[u8], k: u32, room: usize) -> Result<(Row, Answer), Refusal> {
    let sheet = Sheet::read(bytes)?;
    let k = k as usize;
    refuse_if(k >= sheet.lines.len(), Cause::NoSuchLine, 0)?;
    refuse_if(room < COLUMNS, Cause::TableTooShort, 0)?;
    let solved = solve_sheet(&sheet)?;
    let result = solved.table.replace_unknowns(&solved.units[k]);
    refuse_if(past_limit(&result), Cause::WideResult, k)?;
    Ok((result, solved.table.answer()))
}

pub fn line_question(bytes: &[u8], k: u32, table: &mut [i32]) -> Answer {
    match ask_line(bytes, k, table.len()) {
        Ok((result, answer)) => {
            write_row(&result, table);
            answer
        }
        Err(refusal) => refusal.answer(),
    }
}

/// Start and length of the part that holds the lines, (0, 0) when empty.
pub fn lines_part(bytes: &[u8]) -> (usize, usize) {
    match Sheet::read(bytes) {
        Ok(sheet) if !sheet.lines.is_empty() => (sheet.lines_start, 4 * sheet.lines.len()),
        _ => (0, 0),
    }
}

//! Document 01, "The listing".

use crate::answer::Refusal;
use crate::elimination::{past_limit, Row, UNKNOWNS};
use crate::rules::{solve_sheet, Solved};
use crate::sheet::Sheet;

const BASES: [&str; 8] = ["s", "m", "kg", "A", "K", "mol", "cd", "pulse"];

pub fn listing(bytes: &[u8]) -> Vec<u8> {
    let text = match Sheet::read(bytes) {
        Err(refusal) => refused(refusal),
        Ok(sheet) => match solve_sheet(&sheet) {
            Err(refusal) => refused(refusal),
            Ok(solved) => accepted(&sheet, &solved),
        },
    };
    text.into_bytes()
}

fn refused(refusal: Refusal) -> String {
    let number = refusal.cause.number();
    let kind = match number {
        5 => "record",
        6 => "channel",
        7 | 9 | 10 => "line",
        _ => return format!("refused {number}\n"),
    };
    format!("refused {number} {kind} {}\n", refusal.place + 1)
}

fn accepted(sheet: &Sheet, solved: &Solved) -> String {
    let answer = solved.table.answer();
    let free = solved.table.free.iter().filter(|&&free| free).count();
    let mut text = format!("accepted {} {free}\n", answer.rounds);
    for (j, row) in solved.table.rows.iter().enumerate() {
        text += &format!("U{} = {}\n", j + 1, factors(row));
    }
    for (c, &record) in sheet.channels.iter().enumerate() {
        let unit = solved.table.replace_unknowns(&sheet.records[record]);
        let figure = if past_limit(&unit) {
            "wide".to_string()
        } else {
            format!("= {}", factors(&unit))
        };
        text += &format!("C{} {figure}\n", c + 1);
    }
    text
}

fn factors(unit: &Row) -> String {
    let named = unit.iter().enumerate().filter(|&(_, &e)| e != 0);
    let words: Vec<String> = named.map(|(column, &e)| factor(column, e)).collect();
    if words.is_empty() {
        return "1".to_string();
    }
    words.join(" ")
}

fn factor(column: usize, exponent: i128) -> String {
    let name = if column < UNKNOWNS {
        format!("U{}", column + 1)
    } else {
        BASES[column - UNKNOWNS].to_string()
    };
    if exponent == 1 {
        return name;
    }
    format!("{name}^{exponent}")
}

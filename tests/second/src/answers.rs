//! Answer lines, as PACK.md states them.

use std::fmt::Write;

use crate::answer::Answer;
use crate::elimination::eliminate;
use crate::pack::Case;
use crate::rules::{check, line_question, lines_part};

/// The table as it is before every call.
pub fn lent_table(room: u32) -> Vec<i32> {
    (7000..).take(room as usize).collect()
}

pub fn answer_line(case: &Case) -> String {
    match case {
        Case::Sheet {
            room,
            questions,
            sheet,
        } => {
            let mut line = call("S", *room, |table| check(sheet, table));
            for question in questions {
                line += &call(" Q", question.room, |table| {
                    line_question(sheet, question.line, table)
                });
            }
            let (start, length) = lines_part(sheet);
            line + &format!(" P {start} {length}\n")
        }
        Case::System { room, v, numbers } => {
            call("E", *room, |table| eliminate(*v, numbers, table)) + "\n"
        }
    }
}

fn call(word: &str, room: u32, run: impl FnOnce(&mut [i32]) -> Answer) -> String {
    let mut table = lent_table(room);
    let Answer {
        number,
        place,
        rounds,
        mask,
    } = run(&mut table);
    let mut text = format!("{word} {number} {place} {rounds} {mask} T");
    for number in table {
        write!(text, " {number}").expect("a string takes any text");
    }
    text
}

//! What a pack holds, counted.

use std::collections::BTreeMap;

use crate::answer::Refusal;
use crate::elimination::{solve_system, Table};
use crate::listing::listing;
use crate::pack::Case;
use crate::rules::{ask_line, solve_with_room};
use crate::sheet::Sheet;

#[derive(Default)]
pub struct Counts {
    /// By call, number and cause.
    pub verdicts: BTreeMap<(&'static str, u32, &'static str), u64>,
    pub sheets: u64,
    pub systems: u64,
    pub sheets_past_check_7: u64,
    /// Accepted, with ten rounds or more and two free unknowns or more.
    pub rich_sheets: u64,
    pub channels_wide: u64,
    pub most_rounds_of_equation: u32,
    pub most_rounds_of_sheet: u32,
    pub most_free: usize,
}

pub fn count(cases: &[Case]) -> Counts {
    let mut counts = Counts::default();
    for case in cases {
        counts.add(case);
    }
    counts
}

fn free(table: &Table) -> usize {
    table.free.iter().filter(|&&free| free).count()
}

impl Counts {
    fn add(&mut self, case: &Case) {
        match case {
            Case::Sheet {
                room,
                questions,
                sheet,
            } => {
                self.sheets += 1;
                self.sheets_past_check_7 += u64::from(Sheet::read(sheet).is_ok());
                let solved = solve_with_room(sheet, *room as usize);
                self.verdict("sheet", solved.as_ref().err());
                if let Ok(solved) = solved {
                    self.table(&solved.table);
                    let rounds = solved.table.answer().rounds;
                    let rich = rounds >= 10 && free(&solved.table) >= 2;
                    self.rich_sheets += u64::from(rich);
                    self.most_rounds_of_sheet = self.most_rounds_of_sheet.max(rounds);
                    let text = String::from_utf8(listing(sheet)).expect("a listing is text");
                    let wide = text.lines().filter(|line| line.ends_with(" wide"));
                    self.channels_wide += wide.count() as u64;
                }
                for question in questions {
                    let asked = ask_line(sheet, question.line, question.room as usize);
                    self.verdict("question", asked.as_ref().err());
                }
            }
            Case::System { room, v, numbers } => {
                self.systems += 1;
                let solved = solve_system(*v, numbers, *room as usize);
                self.verdict("system", solved.as_ref().err());
                if let Ok(table) = solved {
                    self.table(&table);
                }
            }
        }
    }

    fn verdict(&mut self, call: &'static str, refusal: Option<&Refusal>) {
        let (number, text) = match refusal {
            Some(refusal) => (refusal.cause.number(), refusal.cause.text()),
            None => (0, "accepted"),
        };
        *self.verdicts.entry((call, number, text)).or_default() += 1;
    }

    fn table(&mut self, table: &Table) {
        let rounds = table.rounds.iter().copied().max().unwrap_or(0);
        self.most_rounds_of_equation = self.most_rounds_of_equation.max(rounds);
        self.most_free = self.most_free.max(free(table));
    }

    pub fn of(&self, call: &str, number: u32, text: &str) -> u64 {
        let found = self.verdicts.get(&(call, number, text));
        found.copied().unwrap_or(0)
    }

    pub fn table_of_text(&self) -> String {
        let mut text = String::new();
        let mut line = |number: u64, what: &str| text += &format!("{number:>8}  {what}\n");
        line(self.sheets, "sheets");
        line(self.systems, "systems");
        line(self.sheets_past_check_7, "sheets that pass checks 1 to 7");
        for (&(call, number, cause), &times) in &self.verdicts {
            line(times, &format!("{call} {number} {cause}"));
        }
        line(self.channels_wide, "channels wide in the listing");
        line(
            self.rich_sheets,
            "sheets accepted with 10 rounds and 2 free unknowns or more",
        );
        line(
            self.most_rounds_of_equation.into(),
            "most rounds for one equation",
        );
        line(
            self.most_rounds_of_sheet.into(),
            "most rounds for one sheet",
        );
        line(self.most_free as u64, "most free unknowns");
        text
    }
}

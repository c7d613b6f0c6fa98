//! Document 01, "Five ways to go wrong that look right": each is caught by the
//! stored cases and by a random pack.

mod common;
mod variant;

use common::{stored, Stored};
use second::make::{make, Kind};
use second::{check, listing, Case};
use variant::{Flaw, FLAWS};

const STORED_CASES: usize = 25;

fn stored_cases() -> Vec<Stored> {
    let cases = stored("../cases");
    let count = cases.len();
    assert!(count >= STORED_CASES, "only {count} stored cases");
    cases
}

fn random_sheets() -> Vec<Vec<u8>> {
    let cases = make(5, 2000, Kind::Sheets, false);
    let sheet = |case| match case {
        Case::Sheet { sheet, .. } => sheet,
        Case::System { .. } => panic!("a pack of sheets has no system"),
    };
    cases.into_iter().map(sheet).collect()
}

/// Whether the variant answers as the solver does, table and listing included.
fn agrees(flaw: Flaw, sheet: &[u8]) -> bool {
    let mut table = vec![0; 32 * 24];
    let answer = check(sheet, &mut table);
    let (other, rows) = variant::check(flaw, sheet);
    answer == other
        && table.starts_with(&rows)
        && listing(sheet) == variant::listing(flaw, sheet).as_bytes()
}

#[test]
fn without_a_flaw_the_variant_is_right() {
    for case in stored_cases() {
        let text = variant::listing(Flaw::None, &case.sheet);
        assert_eq!(text.as_bytes(), case.listing, "{}", case.name);
    }
    for (index, sheet) in random_sheets().iter().enumerate() {
        assert!(agrees(Flaw::None, sheet), "random sheet {index}");
    }
}

#[test]
fn stored_cases_catch_every_flaw() {
    let cases = stored_cases();
    let missed = FLAWS.iter().filter(|&&flaw| {
        let right = |case: &Stored| variant::listing(flaw, &case.sheet).as_bytes() == case.listing;
        cases.iter().all(right)
    });
    let missed: Vec<&Flaw> = missed.collect();
    assert!(missed.is_empty(), "no stored case catches {missed:?}");
}

#[test]
fn a_random_pack_catches_every_flaw() {
    let sheets = random_sheets();
    for flaw in FLAWS {
        let wrong = sheets.iter().filter(|sheet| !agrees(flaw, sheet)).count();
        assert!(wrong >= 20, "{flaw:?} shows in only {wrong} sheets");
    }
}

//! What a made pack is promised to hold.

use second::make::{make, Kind};
use second::{answer_line, count, write_pack, Case};

/// Call, number, cause and the fewest wanted among 20,000 cases.
const WANTED: [(&str, u32, &str, u64); 47] = [
    ("sheet", 0, "accepted", 4000),
    ("sheet", 1, "length", 100),
    ("sheet", 2, "last four bytes", 100),
    ("sheet", 3, "V", 50),
    ("sheet", 3, "U", 50),
    ("sheet", 3, "C", 50),
    ("sheet", 3, "N", 50),
    ("sheet", 3, "trailer byte 9", 30),
    ("sheet", 4, "distance or length", 100),
    ("sheet", 5, "record out of range", 100),
    ("sheet", 5, "column V to 23", 100),
    ("sheet", 6, "channel", 100),
    ("sheet", 7, "line code", 100),
    ("sheet", 7, "line operand", 100),
    ("sheet", 7, "line unused byte", 100),
    ("sheet", 8, "table too short", 300),
    ("sheet", 9, "wide line unit", 100),
    ("sheet", 9, "wide equation", 100),
    ("sheet", 9, "wide equation after replacing", 100),
    ("sheet", 9, "wide row after a round", 100),
    ("sheet", 10, "clash in step 1", 300),
    ("sheet", 10, "clash in step 4", 300),
    ("question", 0, "accepted", 4000),
    ("question", 1, "length", 100),
    ("question", 2, "last four bytes", 100),
    ("question", 4, "distance or length", 100),
    ("question", 5, "record out of range", 100),
    ("question", 6, "channel", 100),
    ("question", 7, "line operand", 100),
    ("question", 8, "table too short", 300),
    ("question", 9, "wide line unit", 100),
    ("question", 9, "wide equation", 100),
    ("question", 9, "wide equation after replacing", 100),
    ("question", 9, "wide row after a round", 100),
    ("question", 9, "wide result", 100),
    ("question", 10, "clash in step 1", 300),
    ("question", 11, "no such line", 300),
    ("system", 0, "accepted", 2000),
    ("system", 3, "V", 100),
    ("system", 4, "part of an equation", 100),
    ("system", 5, "column V to 23", 100),
    ("system", 8, "table too short", 300),
    ("system", 9, "wide equation", 100),
    ("system", 9, "wide equation after replacing", 100),
    ("system", 9, "wide row after a round", 100),
    ("system", 10, "clash in step 1", 300),
    ("system", 10, "clash in step 4", 300),
];

#[test]
fn a_pack_of_20_000() {
    let counts = count(&make(1, 20_000, Kind::Both, false));
    assert_eq!(counts.sheets + counts.systems, 20_000);
    for (call, number, cause, fewest) in WANTED {
        let found = counts.of(call, number, cause);
        assert!(found >= fewest, "{call} {number} {cause}: {found}");
    }
    assert!(counts.channels_wide >= 100);
    assert!(counts.rich_sheets >= 500, "{}", counts.rich_sheets);
    // Each pick is at least the sum of the next two, so the first of 39 would
    // be at least the 40th Fibonacci number, 102,334,155.
    assert_eq!(counts.most_rounds_of_equation, 38);
    assert!(counts.most_rounds_of_sheet >= 100);
    assert!(counts.most_free >= 24);
}

#[test]
fn half_of_the_sheets_pass_checks_1_to_7() {
    for (seed, small) in [(1, false), (2, false), (3, true), (4, true)] {
        let counts = count(&make(seed, 1000, Kind::Sheets, small));
        let passed = counts.sheets_past_check_7;
        assert!(2 * passed >= counts.sheets, "seed {seed}: {passed}");
    }
}

#[test]
fn a_seed_decides_its_pack() {
    let cases = make(8, 300, Kind::Both, false);
    assert!(cases == make(8, 300, Kind::Both, false));
    assert!(cases[..200] == make(8, 200, Kind::Both, false));
    assert!(cases != make(9, 300, Kind::Both, false));
}

#[test]
fn packs_of_one_kind() {
    let is_sheet = |case: &Case| matches!(case, Case::Sheet { .. });
    assert!(make(1, 200, Kind::Sheets, false).iter().all(is_sheet));
    assert!(!make(1, 200, Kind::Systems, false).iter().any(is_sheet));
}

#[test]
fn small_packs_are_small() {
    for kind in [Kind::Both, Kind::Sheets, Kind::Systems] {
        let cases = make(6, 1000, kind, true);
        let answers: usize = cases.iter().map(|case| answer_line(case).len()).sum();
        assert!(write_pack(&cases).len() < 1_000_000);
        assert!(answers < 1_000_000, "{answers}");
    }
}

#[test]
fn numbers_of_the_lowest_value_are_asked() {
    let cases = make(1, 2000, Kind::Systems, false);
    let has_lowest = |case: &&Case| match case {
        Case::System { numbers, .. } => numbers.contains(&i32::MIN),
        Case::Sheet { .. } => false,
    };
    assert!(cases.iter().filter(has_lowest).count() >= 20);
}

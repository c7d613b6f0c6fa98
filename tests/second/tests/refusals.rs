//! Each refusal at its boundary, and the order of the checks.

use second::make::{one, Draft};
use second::{check, lent_table, line_question, lines_part, listing, Answer};

const M: usize = 25;

/// Number and place. A refusal leaves the table and has no rounds and no mask.
fn verdict(sheet: &[u8]) -> (u32, u32) {
    let mut table = lent_table(768);
    let answer = check(sheet, &mut table);
    if answer.number != 0 {
        assert_eq!(table, lent_table(768));
        assert_eq!((answer.rounds, answer.mask), (0, 0));
    }
    if (1..=7).contains(&answer.number) {
        let mut empty: [i32; 0] = [];
        assert_eq!(line_question(sheet, 9999, &mut empty), answer);
        assert_eq!(lines_part(sheet), (0, 0));
    }
    (answer.number, answer.place)
}

/// A well-formed sheet with V = 2, U = 3, C = 2, N = 3.
fn plain() -> Draft {
    let mut draft = Draft::new(2);
    draft.reading(one(0, 1));
    draft.reading(one(M, 1));
    draft.stated(0, one(1, 3));
    draft
}

fn counts(v: usize, u: usize, c: usize, n: usize) -> Vec<u8> {
    let draft = Draft {
        v,
        records: vec![[0; 32]; u],
        channels: vec![0; c],
        lines: vec![[0; 4]; n],
    };
    draft.bytes()
}

#[test]
fn length() {
    assert_eq!(verdict(&plain().bytes()), (0, 0));
    let full = counts(24, 64, 16, 256);
    assert_eq!(full.len(), 3104);
    assert_eq!(verdict(&full), (0, 0));
    assert_eq!(lines_part(&full), (2064, 1024));
    assert_eq!(verdict(&[&[0], &full[..]].concat()), (1, 0));
    let shortest = counts(0, 0, 0, 0);
    assert_eq!(shortest.len(), 16);
    for length in 0..16 {
        assert_eq!(verdict(&shortest[16 - length..]), (1, 0));
    }
    assert_eq!(listing(b""), b"refused 1\n");
}

#[test]
fn last_four_bytes() {
    let sheet = plain().bytes();
    for back in 1..=4 {
        let mut sheet = sheet.clone();
        let place = sheet.len() - back;
        sheet[place] ^= 0x20;
        assert_eq!(verdict(&sheet), (2, 0));
        assert_eq!(listing(&sheet), b"refused 2\n");
    }
}

#[test]
fn limits() {
    assert_eq!(verdict(&counts(25, 0, 0, 0)), (3, 0));
    assert_eq!(verdict(&counts(0, 65, 0, 0)), (3, 0));
    assert_eq!(verdict(&counts(0, 1, 17, 0)), (3, 0));
    assert_eq!(verdict(&counts(0, 0, 0, 257)), (3, 0));
    assert_eq!(verdict(&counts(25, 64, 16, 256)), (3, 0));
    assert_eq!(verdict(&counts(24, 65, 16, 256)), (1, 0));
    assert_eq!(verdict(&counts(24, 64, 17, 256)), (1, 0));
    assert_eq!(verdict(&counts(24, 64, 16, 257)), (1, 0));
    let mut sheet = plain().bytes();
    let byte_9 = sheet.len() - 7;
    sheet[byte_9] = 1;
    assert_eq!(verdict(&sheet), (3, 0));
    assert_eq!(listing(&sheet), b"refused 3\n");
}

#[test]
fn distances() {
    let sheet = plain().bytes();
    for offset in 0..6 {
        let mut changed = sheet.clone();
        changed[sheet.len() - 16 + offset] ^= 1;
        assert_eq!(verdict(&changed), (4, 0), "offset {offset}");
    }
    assert_eq!(verdict(&sheet[1..]), (4, 0));
    assert_eq!(verdict(&[&[0], &sheet[..]].concat()), (4, 0));
    assert_eq!(listing(&sheet[1..]), b"refused 4\n");
}

#[test]
fn records() {
    let with = |record: usize, column: usize, exponent: i8| {
        let mut draft = plain();
        draft.records[record][column] = exponent;
        draft.bytes()
    };
    for exponent in [64, -64] {
        assert_eq!(verdict(&with(1, M, exponent)), (0, 0));
    }
    for exponent in [65, -65, 127, -128] {
        assert_eq!(verdict(&with(1, M, exponent)), (5, 1));
        assert_eq!(verdict(&with(0, 0, exponent)), (5, 0));
    }
    for column in 2..24 {
        assert_eq!(verdict(&with(2, column, -1)), (5, 2), "column {column}");
    }
    assert_eq!(listing(&with(2, 23, 1)), b"refused 5 record 3\n");
    assert_eq!(with(2, 31, -128)[95], 0x80);
}

#[test]
fn channels() {
    let with = |channel: usize, record: u8| {
        let mut draft = plain();
        draft.channels[channel] = record;
        draft.bytes()
    };
    assert_eq!(verdict(&with(1, 2)), (0, 0));
    assert_eq!(verdict(&with(1, 3)), (6, 1));
    assert_eq!(verdict(&with(0, 255)), (6, 0));
    assert_eq!(listing(&with(1, 3)), b"refused 6 channel 2\n");
}

/// Fourth lines that the plain sheet may have.
const PASSING_LINES: [[u8; 4]; 8] = [
    [0, 255, 255, 0],
    [1, 1, 0, 0],
    [2, 0, 0, 0],
    [4, 2, 2, 0],
    [5, 2, 2, 0],
    [6, 0, 1, 0],
    [7, 2, 2, 0],
    [8, 2, 2, 0],
];

/// Fourth lines that it may not have.
const REFUSED_LINES: [[u8; 4]; 22] = [
    [0, 0, 0, 1],
    [1, 2, 0, 0],
    [1, 0, 1, 0],
    [1, 0, 0, 1],
    [2, 3, 0, 0],
    [2, 0, 3, 0],
    [2, 0, 0, 1],
    [3, 3, 0, 0],
    [3, 0, 3, 0],
    [4, 3, 0, 0],
    [4, 0, 3, 0],
    [5, 255, 0, 0],
    [5, 0, 255, 0],
    [6, 3, 0, 0],
    [6, 0, 2, 0],
    [6, 0, 0, 128],
    [7, 3, 0, 0],
    [7, 0, 3, 0],
    [8, 3, 0, 0],
    [8, 0, 3, 0],
    [9, 0, 0, 0],
    [255, 0, 0, 0],
];

#[test]
fn lines() {
    let with = |line: [u8; 4]| {
        let mut draft = plain();
        draft.lines.push(line);
        draft.bytes()
    };
    for line in PASSING_LINES {
        assert_eq!(verdict(&with(line)), (0, 0), "{line:?}");
    }
    for line in REFUSED_LINES {
        assert_eq!(verdict(&with(line)), (7, 3), "{line:?}");
        assert_eq!(listing(&with(line)), b"refused 7 line 4\n");
    }
}

#[test]
fn rooms_and_line_numbers() {
    let sheet = plain().bytes();
    for (room, number) in [(0, 8), (63, 8), (64, 0), (65, 0)] {
        let mut table = lent_table(room);
        assert_eq!(check(&sheet, &mut table).number, number, "room {room}");
        let kept = if number == 0 { 64 } else { 0 };
        assert_eq!(table[kept..], lent_table(room)[kept..]);
    }
    for (k, room, number) in [
        (2, 32, 0),
        (2, 31, 8),
        (3, 32, 11),
        (3, 31, 11),
        (u32::MAX, 0, 11),
    ] {
        let mut table = lent_table(room);
        let answer = line_question(&sheet, k, &mut table);
        assert_eq!(answer.number, number, "line {k}, room {room}");
        assert!(number == 0 || table == lent_table(room));
    }
}

#[test]
fn the_order_of_the_checks() {
    let mut draft = plain();
    draft.line(7, 1, 1);
    draft.stated(1, one(M, 2));
    let short = |sheet: &[u8]| {
        let mut empty: [i32; 0] = [];
        (
            check(sheet, &mut empty).number,
            line_question(sheet, 0, &mut empty).number,
        )
    };
    assert_eq!(verdict(&draft.bytes()), (10, 4));
    assert_eq!(short(&draft.bytes()), (8, 8), "8 before 10");
    draft.lines[3][3] = 1;
    assert_eq!(verdict(&draft.bytes()), (7, 3), "7 before 8");
    draft.channels[1] = 9;
    assert_eq!(verdict(&draft.bytes()), (6, 1), "6 before 7");
    draft.records[2][31] = 65;
    draft.records[3][31] = 65;
    assert_eq!(verdict(&draft.bytes()), (5, 2), "5 before 6, lowest first");
    let mut sheet = draft.bytes();
    let trailer = sheet.len() - 16;
    sheet[trailer] ^= 1;
    assert_eq!(verdict(&sheet), (4, 0), "4 before 5");
    sheet[trailer + 6] = 25;
    assert_eq!(verdict(&sheet), (3, 0), "3 before 4");
    sheet[trailer + 12] = 0;
    assert_eq!(verdict(&sheet), (2, 0), "2 before 3");
    sheet.resize(3105, 0);
    assert_eq!(verdict(&sheet), (1, 0), "1 before 2");
}

#[test]
fn a_refused_question_names_the_sheets_own_line() {
    let mut draft = plain();
    draft.stated(1, one(M, 2));
    let mut table = lent_table(32);
    let expected = Answer {
        number: 10,
        place: 3,
        rounds: 0,
        mask: 0,
    };
    assert_eq!(line_question(&draft.bytes(), 0, &mut table), expected);
    assert_eq!(table, lent_table(32));
}

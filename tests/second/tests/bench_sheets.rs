//! Document 01's whole case and its examples that are sheets; expected values by hand.

use second::make::{one, Draft};
use second::{check, lent_table, line_question, lines_part, listing, Answer};

const M: usize = 25;
const PULSE: usize = 31;

fn refusal(number: u32, place: u32) -> Answer {
    Answer {
        number,
        place,
        rounds: 0,
        mask: 0,
    }
}

fn text(sheet: &[u8]) -> String {
    String::from_utf8(listing(sheet)).expect("a listing is text")
}

/// The whole case, byte by byte.
fn whole_case() -> Vec<u8> {
    let mut bytes = vec![0; 130];
    bytes[31] = 1;
    bytes[32] = 1;
    bytes[64 + 25] = 3;
    bytes[96..98].copy_from_slice(&[0, 1]);
    let lines = [[1, 0, 0, 0], [1, 1, 0, 0], [4, 0, 1, 0], [8, 2, 2, 0]];
    bytes[98..114].copy_from_slice(&lines.concat());
    let trailer = [
        130, 0, 34, 0, 32, 0, 1, 3, 2, 0, 4, 0, 0x43, 0x53, 0x48, 0x31,
    ];
    bytes[114..].copy_from_slice(&trailer);
    bytes
}

#[test]
fn the_whole_case() {
    let sheet = whole_case();
    let expected = "accepted 1 0\nU1 = m^3 pulse^-1\nC1 = pulse\nC2 = m^3 pulse^-1\n";
    assert_eq!(text(&sheet), expected);
    assert_eq!(lines_part(&sheet), (98, 16));

    let mut table = lent_table(34);
    let accepted = Answer {
        number: 0,
        place: 0,
        rounds: 1,
        mask: 0,
    };
    assert_eq!(check(&sheet, &mut table), accepted);
    let mut expected = [0; 34];
    expected[M] = 3;
    expected[PULSE] = -1;
    expected[32..].copy_from_slice(&[7032, 7033]);
    assert_eq!(table, expected);

    let mut table = lent_table(33);
    assert_eq!(line_question(&sheet, 2, &mut table), accepted);
    let mut expected = [0; 33];
    expected[M] = 3;
    expected[32] = 7032;
    assert_eq!(table, expected);
}

#[test]
fn the_draft_writes_the_whole_case() {
    let mut draft = Draft::new(1);
    draft.reading(one(PULSE, 1));
    draft.reading(one(0, 1));
    draft.line(4, 0, 1);
    draft.stated(2, one(M, 3));
    assert_eq!(draft.bytes(), whole_case());
}

#[test]
fn no_lines() {
    let sheet = [
        16, 0, 16, 0, 16, 0, 0, 0, 0, 0, 0, 0, 0x43, 0x53, 0x48, 0x31,
    ];
    assert_eq!(text(&sheet), "accepted 0 0\n");
    assert_eq!(lines_part(&sheet), (0, 0));
    let mut table = lent_table(1);
    assert_eq!(check(&sheet, &mut table), refusal(0, 0));
    assert_eq!(line_question(&sheet, 0, &mut table), refusal(11, 0));
    assert_eq!(table, [7000]);
}

fn squarings(count: usize) -> Vec<u8> {
    let mut draft = Draft::new(0);
    let mut line = draft.reading(one(M, 64));
    for _ in 0..count {
        line = draft.line(4, line, line);
    }
    draft.bytes()
}

#[test]
fn twenty_and_twenty_one_squarings() {
    let sheet = squarings(20);
    assert_eq!(check(&sheet, &mut []), refusal(0, 0));
    let mut table = lent_table(32);
    assert_eq!(line_question(&sheet, 20, &mut table), refusal(0, 0));
    let mut expected = [0; 32];
    expected[M] = 67_108_864;
    assert_eq!(table, expected);

    let sheet = squarings(21);
    assert_eq!(check(&sheet, &mut []), refusal(9, 21));
    assert_eq!(text(&sheet), "refused 9 line 22\n");
    let mut table = lent_table(32);
    assert_eq!(line_question(&sheet, 0, &mut table), refusal(9, 21));
    assert_eq!(table, lent_table(32));
    assert_eq!(lines_part(&sheet), (33, 88));
}

/// Each code once. Unknown 0 turns out as m (lines 2 to 4), unknown 1 as m^2 (line 8).
fn every_code() -> Draft {
    let mut draft = Draft::new(2);
    draft.line(0, 255, 255);
    draft.reading(one(0, 1));
    draft.reading(one(M, 1));
    draft.line(2, 1, 2);
    draft.line(3, 2, 1);
    draft.line(4, 1, 2);
    draft.line(5, 0, 5);
    draft.line(7, 1, 3);
    draft.line(4, 5, 5);
    draft.line(6, 8, 1);
    draft.stated(9, one(M, 2));
    draft
}

#[test]
fn the_unit_of_each_code() {
    let sheet = every_code().bytes();
    let exponents_of_m = [0, 1, 1, 1, 1, 2, -2, 0, 4, 2, 2];
    for (k, exponent) in exponents_of_m.into_iter().enumerate() {
        let mut table = lent_table(32);
        let answer = line_question(&sheet, k as u32, &mut table);
        let rounds_2 = Answer {
            number: 0,
            place: 0,
            rounds: 2,
            mask: 0,
        };
        assert_eq!(answer, rounds_2, "line {k}");
        let mut expected = [0; 32];
        expected[M] = exponent;
        assert_eq!(table, expected, "line {k}");
    }
    let expected = "accepted 2 0\nU1 = m\nU2 = m^2\nC1 = m\nC2 = m\n";
    assert_eq!(text(&sheet), expected);
}

/// A clash for each code that has an equation: m against m^2, s or a root of m.
#[test]
fn each_equation_can_clash() {
    for (code, a, b) in [(2, 0, 1), (3, 0, 1), (7, 0, 1), (8, 0, 1), (6, 0, 0)] {
        let mut draft = Draft::new(1);
        draft.reading(one(M, 1));
        draft.reading(one(M, 2));
        draft.line(code, a, b);
        let sheet = draft.bytes();
        let mut table = lent_table(32);
        assert_eq!(check(&sheet, &mut table), refusal(10, 2), "code {code}");
        assert_eq!(table, lent_table(32), "code {code}");
        assert_eq!(text(&sheet), "refused 10 line 3\n", "code {code}");
        assert_eq!(lines_part(&sheet), (66, 12), "code {code}");
    }
}

/// Unknown 1 = m^n; channel 3 is (unknown 1)^2 m^d.
fn channel(n: i64, d: i8) -> Draft {
    let mut draft = Draft::new(1);
    let left = draft.reading(one(0, 1));
    let reading = draft.reading(one(M, 1));
    let right = draft.power(reading, n);
    draft.line(2, left, right);
    let mut record = one(0, 2);
    record[M] = d;
    draft.reading(record);
    draft
}

#[test]
fn a_channel_and_a_result_at_the_limit() {
    let wide = channel(50_000_000, 1);
    let row = "accepted 1 0\nU1 = m^50000000\nC1 = m^50000000\nC2 = m\n";
    assert_eq!(text(&wide.bytes()), format!("{row}C3 wide\n"));
    let last = wide.lines.len() as u32 - 1;
    let mut table = lent_table(32);
    let answer = line_question(&wide.bytes(), last, &mut table);
    assert_eq!(answer, refusal(9, last));
    assert_eq!(table, lent_table(32));

    let just_fits = channel(50_000_000, 0).bytes();
    assert_eq!(text(&just_fits), format!("{row}C3 = m^100000000\n"));
    let answer = line_question(&just_fits, last, &mut table);
    assert_eq!((answer.number, table[M]), (0, 100_000_000));
}

//! The pack's format: PACK.md's example, its limits, and packs cut short.

use second::make::{make, Kind};
use second::{answer_line, read_pack, write_pack, Case};

/// PACK.md's example, byte by byte.
fn example() -> Vec<u8> {
    let mut pack = b"BENCHPK1".to_vec();
    for number in [1, 2, 1, 24, 0, 1] {
        pack.extend(u32::to_le_bytes(number));
    }
    pack.extend([
        16, 0, 16, 0, 16, 0, 0, 0, 0, 0, 0, 0, 0x43, 0x53, 0x48, 0x31,
    ]);
    for number in [1, 0, 0, 0, 2, 1, 0, 8, 25, u32::MAX] {
        pack.extend(u32::to_le_bytes(number));
    }
    pack
}

#[test]
fn the_example() {
    let cases = read_pack(&example()).expect("a pack");
    let lines: Vec<String> = cases.iter().map(answer_line).collect();
    let expected = [
        "S 0 0 0 0 T 7000 7001 Q 11 0 0 0 T 7000 P 0 0\n",
        "S 1 0 0 0 T P 0 0\n",
        "E 3 0 0 0 T 7000\n",
    ];
    assert_eq!(lines, expected);
    assert_eq!(write_pack(&cases), example());
}

#[test]
fn numbers_have_a_sign() {
    let mut numbers = vec![0; 32];
    (numbers[0], numbers[25]) = (1, 3);
    let case = Case::System {
        room: 33,
        v: 1,
        numbers,
    };
    let zeros = |count: usize| " 0".repeat(count);
    let expected = format!("E 0 0 1 0 T{} -3{} 7032\n", zeros(25), zeros(6));
    assert_eq!(answer_line(&case), expected);
}

#[test]
fn a_pack_is_read_as_it_was_written() {
    for kind in [Kind::Both, Kind::Sheets, Kind::Systems] {
        let cases = make(17, 500, kind, false);
        assert_eq!(read_pack(&write_pack(&cases)), Ok(cases));
    }
}

#[test]
fn a_pack_cut_short() {
    let cases = make(2, 12, Kind::Both, true);
    let pack = write_pack(&cases);
    let ends: Vec<usize> = (0..=cases.len())
        .map(|n| write_pack(&cases[..n]).len())
        .collect();
    for length in 0..=pack.len() {
        let read = read_pack(&pack[..length]);
        match ends.iter().position(|&end| end == length) {
            Some(count) => assert_eq!(read.as_deref(), Ok(&cases[..count])),
            None if length < 8 => assert!(read.is_err_and(|reason| reason.contains("BENCHPK1"))),
            None => assert!(read.is_err_and(|reason| reason.contains("bytes"))),
        }
    }
}

/// A pack of one case: its header, then zeros.
fn one_case(header: [u32; 4], body: usize) -> Vec<u8> {
    let mut pack = b"BENCHPK1".to_vec();
    for number in header {
        pack.extend(number.to_le_bytes());
    }
    pack.resize(pack.len() + body, 0);
    pack
}

#[test]
fn limits() {
    let at_the_limit = [
        ([1, 1024, 16, 128 + 4096], 128 + 4096),
        ([1, 0, 16, 128], 128),
        ([2, 1024, 0, 16_384], 16_384),
        ([2, 0, 0, 4], 4),
    ];
    for (header, body) in at_the_limit {
        let read = read_pack(&one_case(header, body));
        assert!(read.is_ok_and(|cases| cases.len() == 1), "{header:?}");
    }
    let past_it = [
        ([0, 0, 0, 4], 4, "kind 0"),
        ([3, 0, 0, 4], 4, "kind 3"),
        ([1, 1025, 0, 0], 0, "room is 1025"),
        ([1, 0, 17, 136], 136, "questions is 17"),
        ([1, 0, 0, 4097], 4097, "sheet's body is 4097"),
        ([1, 0, 2, 15], 15, "questions needs 16 bytes, 15"),
        ([2, 1025, 0, 4], 4, "room is 1025"),
        ([2, 0, 1, 12], 12, "questions is 1"),
        ([2, 0, 0, 0], 0, "V needs 4 bytes"),
        ([2, 0, 0, 6], 6, "of 6 bytes"),
        ([2, 0, 0, 16_388], 16_388, "system's body is 16388"),
    ];
    for (header, body, reason) in past_it {
        let error = read_pack(&one_case(header, body)).expect_err(reason);
        assert!(error.contains(reason), "{header:?}: {error}");
        assert!(error.starts_with("case 0: "), "{error}");
    }
    let mut question = one_case([1, 0, 1, 8], 8);
    question[28..].copy_from_slice(&1024_u32.to_le_bytes());
    assert!(read_pack(&question).is_ok());
    question[28..].copy_from_slice(&1025_u32.to_le_bytes());
    assert!(read_pack(&question).is_err_and(|error| error.contains("room is 1025")));
}

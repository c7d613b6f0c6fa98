//! Document 01, "Bench examples", those that are systems; expected values by hand.

use second::{eliminate, lent_table, Answer};

const A: usize = 0;
const B: usize = 1;
const C: usize = 2;
const D: usize = 3;
const S: usize = 24;
const M: usize = 25;

type Factors = &'static [(usize, i32)];

struct Example {
    name: &'static str,
    v: u32,
    equations: &'static [Factors],
    rounds: u32,
    mask: u32,
    rows: &'static [Factors],
}

const SLIDES: Factors = &[(A, 2), (B, -3), (M, 5), (S, -2)];
const SLIDES_ROWS: &[Factors] = &[&[(A, -3), (S, 1), (M, -4)], &[(A, -2), (M, -1)]];

const ACCEPTED: &[Example] = &[
    Example {
        name: "no equations",
        v: 2,
        equations: &[],
        rounds: 0,
        mask: 3,
        rows: &[&[(A, 1)], &[(B, 1)]],
    },
    Example {
        name: "no equations, no unknowns",
        v: 0,
        equations: &[],
        rounds: 0,
        mask: 0,
        rows: &[],
    },
    Example {
        name: "a2 m5 = b3 s2",
        v: 2,
        equations: &[SLIDES],
        rounds: 2,
        mask: 1,
        rows: SLIDES_ROWS,
    },
    Example {
        name: "one equation twice",
        v: 2,
        equations: &[SLIDES, SLIDES],
        rounds: 2,
        mask: 1,
        rows: SLIDES_ROWS,
    },
    Example {
        name: "a = c m, a b = d",
        v: 4,
        equations: &[&[(A, 1), (C, -1), (M, -1)], &[(A, 1), (B, 1), (D, -1)]],
        rounds: 2,
        mask: 12,
        rows: &[
            &[(C, 1), (M, 1)],
            &[(C, -1), (D, 1), (M, -1)],
            &[(C, 1)],
            &[(D, 1)],
        ],
    },
    Example {
        name: "a2 = m2",
        v: 1,
        equations: &[&[(A, 2), (M, -2)]],
        rounds: 1,
        mask: 0,
        rows: &[&[(M, 1)]],
    },
    Example {
        name: "a2 = 1",
        v: 1,
        equations: &[&[(A, 2)]],
        rounds: 1,
        mask: 0,
        rows: &[&[]],
    },
    Example {
        name: "a4 b6 = m2",
        v: 2,
        equations: &[&[(A, 4), (B, 6), (M, -2)]],
        rounds: 2,
        mask: 1,
        rows: &[&[(A, 3), (M, 2)], &[(A, -2), (M, -1)]],
    },
    Example {
        name: "a-1 m = 1",
        v: 1,
        equations: &[&[(A, -1), (M, 1)]],
        rounds: 1,
        mask: 0,
        rows: &[&[(M, 1)]],
    },
    Example {
        name: "m = m",
        v: 1,
        equations: &[&[]],
        rounds: 0,
        mask: 1,
        rows: &[&[(A, 1)]],
    },
    // Each quotient but the first (-2) and the last (2) is 1: consecutive Fibonacci numbers.
    Example {
        name: "38 rounds",
        v: 2,
        equations: &[&[(A, 63_245_986), (B, -87_403_803)]],
        rounds: 38,
        mask: 1,
        rows: &[&[(A, -87_403_803)], &[(A, -63_245_986)]],
    },
    // -3 by 2 is quotient -2, remainder 1: a = a b2, then b = a-2.
    Example {
        name: "a2 = b3",
        v: 2,
        equations: &[&[(A, 2), (B, -3)]],
        rounds: 2,
        mask: 1,
        rows: &[&[(A, -3)], &[(A, -2)]],
    },
    // The limit itself is allowed.
    Example {
        name: "a = m^100000000",
        v: 1,
        equations: &[&[(A, 1), (M, -100_000_000)]],
        rounds: 1,
        mask: 0,
        rows: &[&[(M, 100_000_000)]],
    },
];

/// Name, V, equations, number, place.
type Refused = (&'static str, u32, &'static [Factors], u32, u32);

const REFUSED: &[Refused] = &[
    ("a2 = m", 1, &[&[(A, 2), (M, -1)]], 10, 0),
    ("a4 b6 = m", 2, &[&[(A, 4), (B, 6), (M, -1)]], 10, 0),
    ("a2 b2 = m", 2, &[&[(A, 2), (B, 2), (M, -1)]], 10, 0),
    ("m = s", 1, &[&[(M, 1), (S, -1)]], 10, 0),
    (
        "a = m, a = s",
        1,
        &[&[(A, 1), (M, -1)], &[(A, 1), (S, -1)]],
        10,
        1,
    ),
    ("number below -limit", 1, &[&[], &[(A, -100_000_001)]], 9, 1),
    ("number above limit", 0, &[&[(M, 100_000_001)]], 9, 0),
    ("number -2^31", 1, &[&[], &[(A, i32::MIN)]], 9, 1),
    ("number -2^31 of a base", 0, &[&[(S, i32::MIN)]], 9, 0),
    ("V = 25", 25, &[&[]], 3, 0),
    ("column V", 1, &[&[], &[(B, 1)]], 5, 1),
    ("column 23", 23, &[&[(23, -1)]], 5, 0),
    // 5 has no range check, and all equations are tested for it first.
    (
        "column V before wide",
        1,
        &[&[(A, i32::MIN)], &[(C, 1)]],
        5,
        1,
    ),
    (
        "clash before a later wide",
        1,
        &[&[(M, 1)], &[(A, i32::MIN)]],
        10,
        0,
    ),
    // After replacing, 2 * 50,000,001 passes the limit.
    (
        "wide after replacing",
        2,
        &[&[(A, 1), (B, -2)], &[(A, 50_000_001)]],
        9,
        1,
    ),
    // Bases only, yet wide and not a clash.
    (
        "wide bases",
        1,
        &[&[(A, 1), (M, -2)], &[(A, 50_000_001)]],
        9,
        1,
    ),
    // a = b^60000000 is fine until b = c2.
    (
        "wide row",
        3,
        &[&[(A, 1), (B, -60_000_000)], &[(B, 1), (C, -2)]],
        9,
        1,
    ),
    // Round 1 makes a = b^60000000 c^180000000; round 2 would clash.
    (
        "wide row before a later clash",
        3,
        &[&[(A, 1), (B, -60_000_000)], &[(B, 4), (C, -10), (M, 1)]],
        9,
        1,
    ),
    // Step 4 refuses before any row changes.
    (
        "clash before a wide row",
        3,
        &[&[(A, 1), (B, -60_000_000)], &[(B, 2), (C, -6), (M, 1)]],
        10,
        1,
    ),
];

fn numbers(equations: &[Factors]) -> Vec<i32> {
    let row = |factors: &Factors| {
        let mut row = [0; 32];
        for &(column, exponent) in *factors {
            row[column] = exponent;
        }
        row
    };
    equations.iter().flat_map(row).collect()
}

#[test]
fn accepted() {
    for example in ACCEPTED {
        let mut table = lent_table(32 * example.v + 3);
        let answer = eliminate(example.v, &numbers(example.equations), &mut table);
        let expected = Answer {
            number: 0,
            place: 0,
            rounds: example.rounds,
            mask: example.mask,
        };
        assert_eq!(answer, expected, "{}", example.name);
        let (rows, rest) = table.split_at(32 * example.v as usize);
        assert_eq!(rows, numbers(example.rows), "{}", example.name);
        let first = 7000 + 32 * example.v as i32;
        assert_eq!(rest, [first, first + 1, first + 2], "{}", example.name);
    }
}

#[test]
fn refused() {
    for &(name, v, equations, number, place) in REFUSED {
        let mut table = lent_table(32 * 25);
        let answer = eliminate(v, &numbers(equations), &mut table);
        let expected = Answer {
            number,
            place,
            rounds: 0,
            mask: 0,
        };
        assert_eq!(answer, expected, "{name}");
        assert_eq!(table, lent_table(32 * 25), "{name}");
    }
}

#[test]
fn lengths_and_rooms() {
    let slides = numbers(&[SLIDES]);
    let number = |v: u32, numbers: &[i32], room: u32| {
        let mut table = lent_table(room);
        let answer = eliminate(v, numbers, &mut table);
        assert!(answer.number == 0 || table == lent_table(room));
        answer.number
    };
    assert_eq!(number(2, &slides, 64), 0);
    assert_eq!(number(2, &slides, 63), 8);
    assert_eq!(number(2, &slides[..31], 64), 4);
    assert_eq!(number(2, &[&slides[..], &[0]].concat(), 64), 4);
    assert_eq!(number(25, &slides[..31], 0), 3, "3 before 4");
    assert_eq!(number(1, &slides[..31], 0), 4, "4 before 5");
    assert_eq!(number(1, &slides, 0), 5, "5 before 8");
    assert_eq!(number(2, &numbers(&[&[(M, 1)]]), 63), 8, "8 before 10");
    assert_eq!(
        number(2, &numbers(&[&[(M, i32::MAX)]]), 63),
        8,
        "8 before 9"
    );
    assert_eq!(number(0, &[], 0), 0);
    assert_eq!(number(24, &[], 768), 0);
    assert_eq!(number(24, &[], 767), 8);
    assert_eq!(number(u32::MAX, &[], 768), 3);
}

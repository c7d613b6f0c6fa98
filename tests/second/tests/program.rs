//! The program `second` from outside.

use std::io::Write;
use std::process::{Command, Output, Stdio};

use second::make::{make, Kind};
use second::{answer_line, count, write_pack};

fn run(words: &str, input: &[u8]) -> Output {
    let mut program = Command::new(env!("CARGO_BIN_EXE_second"))
        .args(words.split_whitespace())
        .stdin(Stdio::piped())
        .stdout(Stdio::piped())
        .stderr(Stdio::piped())
        .spawn()
        .expect("the program starts");
    let mut stdin = program.stdin.take().expect("standard input is piped");
    // A program that ends on bad words may close its input first.
    let _ = stdin.write_all(input);
    drop(stdin);
    program.wait_with_output().expect("the program ends")
}

fn output(words: &str, input: &[u8]) -> Vec<u8> {
    let done = run(words, input);
    assert!(done.status.success(), "second {words}");
    assert!(done.stderr.is_empty(), "second {words}");
    done.stdout
}

#[test]
fn listing() {
    let sheet = [
        16, 0, 16, 0, 16, 0, 0, 0, 0, 0, 0, 0, 0x43, 0x53, 0x48, 0x31,
    ];
    assert_eq!(output("listing", &sheet), b"accepted 0 0\n");
    assert_eq!(output("listing", &sheet[1..]), b"refused 1\n");
}

#[test]
fn make_answers_and_count() {
    let cases = make(21, 200, Kind::Both, false);
    let pack = write_pack(&cases);
    assert!(output("make 21 200", b"") == pack);
    let lines: String = cases.iter().map(answer_line).collect();
    assert!(output("answers", &pack) == lines.as_bytes());
    let table = count(&cases).table_of_text();
    assert_eq!(output("count", &pack), table.as_bytes());
    let sheets = make(21, 50, Kind::Sheets, true);
    assert!(output("make 21 50 sheets small", b"") == write_pack(&sheets));
    let systems = make(21, 50, Kind::Systems, false);
    assert!(output("make 21 50 systems", b"") == write_pack(&systems));
}

#[test]
fn bad_words_and_bad_packs() {
    let pack = write_pack(&make(1, 3, Kind::Both, true));
    let bad = [
        ("", &pack[..]),
        ("solve", &pack),
        ("listing more", &pack),
        ("make", b""),
        ("make 1", b""),
        ("make 1 -2", b""),
        ("make x 2", b""),
        ("make 1 2 lines", b""),
        ("make 1 2 small sheets", b""),
        ("answers", b""),
        ("answers", b"BENCHPK2"),
        ("answers", &pack[..pack.len() - 1]),
        ("count", &pack[..pack.len() - 1]),
    ];
    for (words, input) in bad {
        let done = run(words, input);
        assert!(!done.status.success(), "second {words}");
        assert!(done.stdout.is_empty(), "second {words}");
        assert!(done.stderr.starts_with(b"second: "), "second {words}");
    }
}

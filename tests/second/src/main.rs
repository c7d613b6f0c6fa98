//! The program `second`: see README.md.

use std::io::{self, Read, Write};
use std::process::ExitCode;

use second::make::{make, Kind};
use second::{answer_line, count, listing, read_pack, write_pack};

const USAGE: &str =
    "usage: second listing | answers | count | make SEED COUNT [sheets|systems] [small]";

fn main() -> ExitCode {
    let words: Vec<String> = std::env::args().skip(1).collect();
    let words: Vec<&str> = words.iter().map(String::as_str).collect();
    let done = run(&words).and_then(|output| {
        let written = io::stdout().write_all(&output);
        written.map_err(|error| error.to_string())
    });
    match done {
        Ok(()) => ExitCode::SUCCESS,
        Err(reason) => {
            eprintln!("second: {reason}");
            ExitCode::FAILURE
        }
    }
}

fn run(words: &[&str]) -> Result<Vec<u8>, String> {
    match words {
        ["listing"] => Ok(listing(&input()?)),
        ["answers"] => {
            let cases = read_pack(&input()?)?;
            let lines: String = cases.iter().map(answer_line).collect();
            Ok(lines.into_bytes())
        }
        ["count"] => {
            let cases = read_pack(&input()?)?;
            Ok(count(&cases).table_of_text().into_bytes())
        }
        ["make", seed, count, rest @ ..] => {
            let (kind, small) = match rest {
                [] => (Kind::Both, false),
                ["small"] => (Kind::Both, true),
                ["sheets"] => (Kind::Sheets, false),
                ["sheets", "small"] => (Kind::Sheets, true),
                ["systems"] => (Kind::Systems, false),
                ["systems", "small"] => (Kind::Systems, true),
                _ => return Err(USAGE.to_string()),
            };
            let cases = make(number(seed)?, number(count)?, kind, small);
            Ok(write_pack(&cases))
        }
        _ => Err(USAGE.to_string()),
    }
}

fn number(word: &str) -> Result<u64, String> {
    let parsed = word.parse();
    parsed.map_err(|_| format!("'{word}' is not a whole number from 0 up; {USAGE}"))
}

fn input() -> Result<Vec<u8>, String> {
    let mut bytes = Vec::new();
    let read = io::stdin().read_to_end(&mut bytes);
    read.map_err(|error| format!("standard input: {error}"))?;
    Ok(bytes)
}

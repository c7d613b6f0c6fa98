//! `compare SEED COUNT [sheets|systems]`: the library against the second solver on COUNT cases.

use std::process::ExitCode;

use library::difference;
use second::make::{make, Kind};

const USAGE: &str = "usage: compare SEED COUNT [sheets|systems]";
const PACK: u64 = 1000;

fn main() -> ExitCode {
    match run(&std::env::args().skip(1).collect::<Vec<_>>()) {
        Ok(compared) => {
            println!("{compared} cases agree");
            ExitCode::SUCCESS
        }
        Err(reason) => {
            eprintln!("compare: {reason}");
            ExitCode::FAILURE
        }
    }
}

fn run(words: &[String]) -> Result<u64, String> {
    let (seed, count, kind) = match words {
        [seed, count] => (number(seed)?, number(count)?, Kind::Both),
        [seed, count, kind] if kind == "sheets" => (number(seed)?, number(count)?, Kind::Sheets),
        [seed, count, kind] if kind == "systems" => (number(seed)?, number(count)?, Kind::Systems),
        _ => return Err(USAGE.to_string()),
    };
    let mut compared = 0;
    while compared < count {
        let part = PACK.min(count - compared);
        for case in make(seed + compared, part, kind, false) {
            if let Some(reason) = difference(&case) {
                return Err(format!("{reason}\n{case:?}"));
            }
        }
        compared += part;
    }
    Ok(compared)
}

fn number(word: &str) -> Result<u64, String> {
    let parsed = word.parse();
    parsed.map_err(|_| format!("'{word}' is not a whole number from 0 up; {USAGE}"))
}

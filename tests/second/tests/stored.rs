//! The stored cases and the examples against the solver's listing.

mod common;

use common::stored;
use second::listing;

fn compare(folder: &str, fewest: usize) {
    let cases = stored(folder);
    assert!(cases.len() >= fewest, "{folder} has {} pairs", cases.len());
    let mut wrong = Vec::new();
    for case in &cases {
        let text = listing(&case.sheet);
        if text != case.listing {
            let text = String::from_utf8_lossy(&text).into_owned();
            wrong.push(format!("{}:\n{text}", case.name));
        }
    }
    assert!(wrong.is_empty(), "not as stored:\n{}", wrong.join("\n"));
}

#[test]
fn stored_cases() {
    compare("../cases", 25);
}

#[test]
fn examples() {
    compare("../../examples", 1);
}

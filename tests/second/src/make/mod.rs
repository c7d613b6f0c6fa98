//! Random packs.

mod agreement;
mod broken;
mod draft;
mod random;
mod rounds;
mod sheets;
mod systems;
mod wide;
mod wide_systems;

use crate::pack::Case;

pub use draft::{one, Draft, Record};
pub use random::Random;

#[derive(Clone, Copy, PartialEq, Eq)]
pub enum Kind {
    Both,
    Sheets,
    Systems,
}

/// The cases that the seed decides. A greater count only adds cases at the end.
pub fn make(seed: u64, count: u64, kind: Kind, small: bool) -> Vec<Case> {
    (0..count)
        .map(|index| {
            let mut random = Random::new(seed, index);
            let system = match kind {
                Kind::Both => random.below(5) < 2,
                Kind::Sheets => false,
                Kind::Systems => true,
            };
            if system {
                systems::system_case(&mut random, small)
            } else {
                sheets::sheet_case(&mut random, small)
            }
        })
        .collect()
}

fn unknowns(random: &mut Random, small: bool) -> usize {
    if small {
        return random.below(4);
    }
    match random.below(4) {
        0 => random.below(25),
        1 => 24 - random.below(3),
        _ => random.below(9),
    }
}

/// A room that is just right, too short or longer than needed.
fn room(random: &mut Random, needed: usize) -> u32 {
    let needed = needed as u32;
    match random.below(16) {
        0 => needed.saturating_sub(1),
        1 => random.below(needed as usize + 1) as u32,
        2 | 3 => needed + 1,
        4 => needed + random.below(40) as u32,
        _ => needed,
    }
}

//! What a search found (controller/count/count search): where it began, and the seeds of the changes that it kept, one after the
//! other.

use super::worst::known;
use crate::entry_point::{EntryPoint, Input};
use crate::generate::{vary, Random};

/// Where a search begins: at an input of the lists, by its name, or at one that is drawn from a seed.
#[derive(Clone, Copy, Debug)]
pub enum Start<'a> {
    Known(&'a str),
    Drawn(u64),
}

impl Start<'_> {
    pub fn input(self, entry: EntryPoint) -> Input {
        match self {
            Start::Known(name) => {
                let named = known(entry).into_iter().find(|candidate| candidate.name == name);
                named.expect("it is one of the known inputs").input
            }
            Start::Drawn(seed) => vary::drawn(&mut Random::new(seed), entry),
        }
    }
}

/// Where the search began, and the seeds of the changes that it kept.
type Found = (EntryPoint, Start<'static>, &'static [u64]);

const FOUND: [Found; 3] = [
    (
        EntryPoint::Translate,
        Start::Known("Begin before falling conditions with 10 numbers"),
        &[55, 252, 2527],
    ),
    (
        EntryPoint::Prepare,
        Start::Known("1,024 function rows of 252 labels"),
        &[124, 701, 875, 1450, 2315, 2447, 3177, 3209, 3246],
    ),
    (EntryPoint::Tick, Start::Known("deep return, last of 1,024 function rows"), &[717]),
];

/// An input with changes by these seeds, one after the other.
pub fn changed(entry: EntryPoint, start: Start, seeds: &[u64]) -> Input {
    let mut input = start.input(entry);
    for seed in seeds {
        vary::vary(&mut Random::new(*seed), entry, &mut input);
    }
    input
}

/// What was found for an entry point.
pub fn found(entry: EntryPoint) -> Vec<(String, Input)> {
    let of_entry = FOUND.iter().filter(|found| found.0 == entry);
    let named = |(_, start, kept): &Found| {
        let name = match start {
            Start::Known(name) => format!("{name}, changed by the search"),
            Start::Drawn(seed) => format!("drawn from seed {seed}, changed by the search"),
        };
        (name, changed(entry, *start, kept))
    };
    of_entry.map(named).collect()
}

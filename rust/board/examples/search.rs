//! A search for inputs that keep an entry point busy for longer than those of the samples: from the worst of them, and from
//! inputs drawn, small changes are tried one after the other, and those are kept that take no fewer cycles on the emulated
//! board, on a Cortex-M0 with the slow multiplier.
//! The seeds of the changes follow each other, so that a search is the same each time, and what it kept is printed as a row
//! for rust/comparison/src/samples/found.rs. controller/count/count search runs it: SEED CHANGES [ENTRY POINT...].

use std::env;

use board::{may_be_slow, Counting};
use comparison::entry_point::{EntryPoint, Input};
use comparison::generate::{vary, Random};
use comparison::samples::found::{changed, Start};
use comparison::samples::worst::{candidates, known, Candidate};
use reference::Reference;

/// How many inputs are drawn to begin with; the longest is taken.
const DRAWN: u64 = 60;

/// How many of the known inputs a search begins with, the longest first, and how often it begins with a drawn one.
const KNOWN: usize = 3;
const DRAWN_STARTS: u64 = 3;

/// What a search came to.
struct Searched {
    first: u64,
    best: u64,
    kept: Vec<u64>,
}

/// The board and the entry point that is searched.
struct Search<'a> {
    board: Counting<'a>,
    entry: EntryPoint,
}

impl Search<'_> {
    fn cycles(&mut self, input: &Input) -> u64 {
        let entry = self.entry;
        let count = self.board.counted(|board| entry.make(board, input)).1;
        if may_be_slow() {
            count.slow_cycles
        } else {
            count.cycles
        }
    }

    /// Changes are tried by the seeds in turn, and kept where the call then takes no less.
    fn search_from(&mut self, start: Start, seeds: std::ops::Range<u64>) -> Searched {
        let mut at = start.input(self.entry);
        let first = self.cycles(&at);
        let (mut best, mut kept) = (first, Vec::new());
        for seed in seeds {
            let mut input = at.clone();
            vary::vary(&mut Random::new(seed), self.entry, &mut input);
            if input == at {
                continue;
            }
            let taken = self.cycles(&input);
            if taken >= best {
                (at, best) = (input, taken);
                kept.push(seed);
            }
        }
        Searched { first, best, kept }
    }

    /// The changes without those that are not needed for the count.
    fn without_needless(&mut self, start: Start, best: u64, mut kept: Vec<u64>) -> Vec<u64> {
        for at in (0..kept.len()).rev() {
            let mut fewer = kept.clone();
            fewer.remove(at);
            if self.cycles(&changed(self.entry, start, &fewer)) >= best {
                kept = fewer;
            }
        }
        kept
    }

    /// The inputs, the longest first, with their cycles.
    fn sorted(&mut self, all: Vec<Candidate>) -> Vec<(u64, String)> {
        let mut counted: Vec<(u64, String)> =
            all.into_iter().map(|one| (self.cycles(&one.input), one.name)).collect();
        counted.sort_by(|a, b| b.cmp(a));
        counted.dedup();
        counted
    }

    /// Of the inputs that some seeds draw, the one that takes longest.
    fn drawn(&mut self, seeds: std::ops::Range<u64>) -> Start<'static> {
        let longest = seeds.max_by_key(|seed| self.cycles(&Start::Drawn(*seed).input(self.entry)));
        Start::Drawn(longest.expect("there are some"))
    }

    fn search(&mut self, seed: u64, cases: u64) {
        let known = self.sorted(known(self.entry));
        let (before, name) = self.sorted(candidates(self.entry))[0].clone();
        println!("{}: {before} cycles so far, {name}", self.entry.name());
        let mut starts: Vec<Start> = known.iter().take(KNOWN).map(|(_, name)| Start::Known(name)).collect();
        starts.extend((0..DRAWN_STARTS).map(|k| self.drawn(seed + k * DRAWN..seed + (k + 1) * DRAWN)));
        for start in starts {
            let Searched { first, best, kept } = self.search_from(start, seed..seed + cases);
            println!("  {start:?}: {first} cycles, after {cases} changes {best}");
            if best > before {
                let kept = self.without_needless(start, best, kept);
                println!("    (EntryPoint::{:?}, Start::{start:?}, &{kept:?}),", self.entry);
            }
        }
    }
}

fn main() {
    let words: Vec<String> = env::args().skip(1).collect();
    let number = |at: usize, otherwise| match words.get(at) {
        Some(word) => word.parse().expect("SEED and CHANGES are numbers"),
        None => otherwise,
    };
    let (seed, cases) = (number(0, 1), number(1, 4_000));
    let chosen = |entry: &EntryPoint| words.len() < 3 || words[2..].iter().any(|word| word == entry.name());
    let mut search = Search { board: Counting::start(&Reference), entry: EntryPoint::ReadChart };
    // of these every value is among the candidates
    let tried = |entry: &EntryPoint| {
        matches!(entry, EntryPoint::LittleChart | EntryPoint::Fresh | EntryPoint::Meaning)
    };
    let searched = EntryPoint::ALL.into_iter().filter(|entry| !tried(entry));
    for entry in searched.filter(chosen) {
        search.entry = entry;
        search.search(seed, cases);
    }
}

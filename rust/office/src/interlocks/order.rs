//! All states that the library's machine comes to from a fresh one, by words for each row there, to find a tick that puts out an output
//! before another was on.

use std::collections::{HashMap, HashSet, VecDeque};

use fairleadow::{Library, Proved, State};

use crate::diff::search;
use crate::image::Image;
use crate::problem::Problem;
use crate::trace::{fresh, Happening};

/// The most states that are tried.
const MOST_STATES: usize = 100_000;

/// What came of it: all states were tried, or so many of them, or words whose last tick breaks the order, at this label.
pub enum Tried {
    All(usize),
    Part(usize),
    Broken { words: Vec<u16>, label: u8, places: usize },
}

/// How the rows of a label stand to each other.
#[derive(Clone, Copy, Debug, PartialEq, Eq)]
pub enum Rows {
    /// As in the image of a chart: each word takes the one row that matches it.
    Apart,
    /// More than one may match a word, or none.
    Any,
}

/// A state of the machine, and whether the output that comes first was on since the last home tick.
#[derive(Clone, Copy, PartialEq, Eq, Hash)]
struct Key {
    depth: u8,
    places: [u8; 32],
    numbers: [u8; 32],
    results: [bool; 16],
    was_on: bool,
}

impl Key {
    fn of(state: &State, was_on: bool) -> Key {
        let State { depth, places, numbers, results, .. } = *state;
        Key { depth, places, numbers, results, was_on }
    }
}

/// A state that was come to, with the place among all of the one before it, and the word that led here.
struct Reached {
    state: State,
    was_on: bool,
    from: Option<(usize, u16)>,
}

/// Tries runs on stacks of these sizes, one after the other.
pub fn tried(
    image: &Image,
    rows: Rows,
    sizes: impl Iterator<Item = usize>,
    late: u32,
    early: u32,
) -> Result<Tried, Problem> {
    let table = image.prepared()?;
    let words = words(image, rows)?;
    let mut states = 0;
    for places in sizes {
        let (table, words) = (&table, &words);
        let mut search = Search { table, words, late, early, reached: Vec::new(), known: HashSet::new() };
        if let Some((words, label)) = search.run(fresh(places)?, MOST_STATES - states)? {
            return Ok(Tried::Broken { words, label, places });
        }
        states += search.reached.len();
        if states >= MOST_STATES {
            return Ok(Tried::Part(states));
        }
    }
    Ok(Tried::All(states))
}

/// Words for all that a tick can do that leaves each label by a row.
fn words(image: &Image, rows: Rows) -> Result<HashMap<u8, Vec<u16>>, Problem> {
    let labels = (2..image.labels()).map(|label| label as u8);
    match rows {
        Rows::Apart => {
            let of_label = |label: u8| {
                let mut words: Vec<u16> = image.rows_of(label).map(|row| row.values).collect();
                words.sort_unstable();
                words.dedup();
                (label, words)
            };
            Ok(labels.map(of_label).collect())
        }
        Rows::Any => {
            let search = search::Search::of(image)?;
            labels.map(|label| Ok((label, search.leading(label)?))).collect()
        }
    }
}

struct Search<'a> {
    table: &'a [u8],
    words: &'a HashMap<u8, Vec<u16>>,
    late: u32,
    early: u32,
    reached: Vec<Reached>,
    known: HashSet<Key>,
}

impl Search<'_> {
    /// From a fresh state on, the nearest states first, up to so many.
    fn run(&mut self, start: State, most: usize) -> Result<Option<(Vec<u16>, u8)>, Problem> {
        let mut open = VecDeque::new();
        open.extend(self.note(start, false, None));
        while let Some(at) = open.pop_front() {
            for word in self.words(&self.reached[at].state) {
                let (mut state, was_on) = (self.reached[at].state, self.reached[at].was_on);
                let label = state.places[usize::from(state.depth) - 1];
                let Ok(ticked) = Proved.live_tick(self.table, &mut state, word) else { continue };
                if ticked.mask & self.late != 0 && !was_on {
                    return Ok(Some((self.words_to(at, word), label)));
                }
                let is_home = Happening::of(ticked.code) == Happening::Home;
                let is_on = !is_home && (was_on || ticked.mask & self.early != 0);
                if self.reached.len() < most {
                    open.extend(self.note(state, is_on, Some((at, word))));
                }
            }
        }
        Ok(None)
    }

    /// The place of a state that is new.
    fn note(&mut self, state: State, was_on: bool, from: Option<(usize, u16)>) -> Option<usize> {
        if !self.known.insert(Key::of(&state, was_on)) {
            return None;
        }
        self.reached.push(Reached { state, was_on, from });
        Some(self.reached.len() - 1)
    }

    /// Words for all that a tick can do; one, if it goes by no row.
    fn words(&self, state: &State) -> Vec<u16> {
        let depth = usize::from(state.depth);
        let leaving = match (state.places[depth - 1], depth) {
            (1, 2..) => state.places[depth - 2],
            (label, _) => label,
        };
        self.words.get(&leaving).filter(|words| !words.is_empty()).cloned().unwrap_or(vec![0])
    }

    /// The words that lead to a state, and one more.
    fn words_to(&self, at: usize, word: u16) -> Vec<u16> {
        let mut words = vec![word];
        let mut from = self.reached[at].from;
        while let Some((before, word)) = from {
            words.push(word);
            from = self.reached[before].from;
        }
        words.reverse();
        words
    }
}

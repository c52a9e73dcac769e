//! Libraries that choose among the rows of a label in one wrong way each, in runs or in live runs: the comparison must find
//! every one.

#[macro_use]
mod common;

use std::cmp::Reverse;

use common::is_found;
use reference::entry::{self, image_from_text, run_ticks};
use reference::image::{Image, Row};
use reference::live::Held;
use reference::machine::{self, matching, row_label, Advanced};
use reference::{as_the_reference, Answer, Library, Refusal, State};

faults! {
    TakesTheFirst,
    TakesTheLast,
    TakesTheFirstOfEquals,
    TakesTheFewestOnes,
    CountsOnesOfTheValues,
    CountsZerosOfTheValues,
    CountsTheFunctionBit,
    PrefersAFunctionBitAmongEquals,
    CountsTheLowByte,
    ComparesTheMasksAsNumbers,
}

/// The reference with one fault, in calls on an image's text or in live calls.
struct Faulty {
    fault: Fault,
    live: bool,
}

impl Faulty {
    /// The row that the fault takes of those that match.
    fn taken(&self, rows: &[Row]) -> Option<Row> {
        let bit = |row: &Row| u32::from(row.function_bit < 2);
        let by = |key: &dyn Fn(&Row) -> u32| rows.iter().max_by_key(|row| key(row)).copied();
        match self.fault {
            TakesTheFirst => rows.first().copied(),
            TakesTheLast => rows.last().copied(),
            TakesTheFirstOfEquals => rows.iter().min_by_key(|row| Reverse(row.care.count_ones())).copied(),
            TakesTheFewestOnes => by(&|row| row.care.count_zeros()),
            CountsOnesOfTheValues => by(&|row| row.values.count_ones()),
            CountsZerosOfTheValues => by(&|row| (row.care & !row.values).count_ones()),
            CountsTheFunctionBit => by(&|row| row.care.count_ones() + bit(row)),
            PrefersAFunctionBitAmongEquals => by(&|row| 2 * row.care.count_ones() + bit(row)),
            CountsTheLowByte => by(&|row| (row.care & 255).count_ones()),
            ComparesTheMasksAsNumbers => by(&|row| row.care.into()),
        }
    }

    /// A tick takes one row at most: the others are left out.
    fn tick_of(&self, image: &Image, state: &State, word: u16) -> Result<Advanced, Refusal> {
        let Some(from) = row_label(image, state) else {
            return machine::tick(image, state, word);
        };
        let rows: Vec<Row> = matching(image, &state.results, from, word).copied().collect();
        let rows = self.taken(&rows).into_iter().collect();
        machine::tick(&Image { rows, ..image.clone() }, state, word)
    }

    fn live_tick_of(&self, held: &Held, state: &State, word: u16) -> Result<Advanced, Refusal> {
        let mut held = held.clone();
        if let Some(from) = held.row_label(state) {
            let taken = self.taken(&held.matching(from, &state.results, word));
            if let Some(rows) = held.rows.get_mut(usize::from(from)) {
                *rows = taken.into_iter().collect();
            }
        }
        held.tick(state, word)
    }
}

/// Whether a run comes to its ticks.
fn ticks(answer: Answer) -> bool {
    matches!(answer, Ok(_) | Err(Refusal::Full { .. } | Refusal::NoRow { .. }))
}

impl Library for Faulty {
    as_the_reference!(chart_calls, image_calls, priced_run, rebindings, spins, value_calls);

    fn run(
        &self,
        text: &[u8],
        state: &mut State,
        words: &[u16],
        masks: &mut [u32],
        codes: &mut [u8],
    ) -> Answer {
        let right = entry::run(text, &mut state.clone(), words, &mut masks.to_vec(), &mut codes.to_vec());
        if self.live || !ticks(right) {
            return entry::run(text, state, words, masks, codes);
        }
        let image = image_from_text(text).expect("an accepted image");
        run_ticks(|state, word| self.tick_of(&image, state, word), state, words, masks, codes)
    }

    fn live_run(
        &self,
        table: &[u8],
        state: &mut State,
        words: &[u16],
        masks: &mut [u32],
        codes: &mut [u8],
    ) -> Answer {
        let right =
            entry::live_run(table, &mut state.clone(), words, &mut masks.to_vec(), &mut codes.to_vec());
        if !self.live || !ticks(right) {
            return entry::live_run(table, state, words, masks, codes);
        }
        let held = Held::of(table).expect("a header in order");
        run_ticks(|state, word| self.live_tick_of(&held, state, word), state, words, masks, codes)
    }
}

#[test]
fn every_fault_is_found() {
    for live in [false, true] {
        for &fault in FAULTS {
            is_found(format_args!("{fault:?}, live: {live}"), &Faulty { fault, live }, 20_000);
        }
    }
}

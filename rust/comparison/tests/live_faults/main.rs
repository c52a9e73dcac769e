//! Libraries with one fault each in what they make of tables: the comparison must find every one.

#[macro_use]
#[path = "../common/mod.rs"]
mod common;
mod handler;
mod misread;

use common::is_found;
use reference::entry;
use reference::image::{Label, FUNCTION_CALL, HOME, RETURN};
use reference::live::Held;
use reference::machine::Advanced;
use reference::{as_the_reference, Answer, Library, Refusal, State};

faults! {
    // what is prepared
    PreparesBeforeItChecks,
    PreparesIntoShortBuffers,
    PreparesPastTheCount,
    CountsFrames,
    NotesNothing,
    NotesOnlyOwnRows,
    NotesTheHighByteFirst,
    NotesTheFrameAfter,
    // what a table is taken to hold
    LooksAtTheFirstByte,
    WantsNothingBehindTheTable,
    CountsAPartFrame,
    TakesAnyRowCount,
    TrustsKinds,
    TrustsLabelsZeroAndOne,
    TakesTheLastSchemeForOneAbove,
    ReadsRowsOfTheNextLabel,
    ReadsRowsPastTheEnd,
    ReadsReversedRows,
    WantsRowsOfTheirLabel,
    EndsTheLastLabelWithTheTable,
    // which states fit
    AcceptsAnyState,
    AcceptsAnyBottom,
    AcceptsAnyPlaceAbove,
    AcceptsAnyOwnerAbove,
    AcceptsAnyKept,
    LooksForRoomFirst,
    ForgetsTheStateOnShortBuffers,
    ChecksTheStateAtEachTick,
    // what a tick does
    HeedsEveryFunctionBit,
    WritesNothingForNumberZero,
    KeepsTheBitForResultsAbove,
    WritesOneForResultsAbove,
    MatchesFunctionBitsAbove,
    MatchesNoBitOfSchemeZero,
    GoesHomeFromLabelsAbove,
    EmptiesTheStackAtHome,
    CallsLabelZeroForSchemeZero,
    EntersTheLastSchemeForOneAbove,
    TakesNumberZeroForServedByItself,
    NamesSchemeOneForSchemeZero,
    KeepsTheCalledBit,
    ClearsNothingForSchemeZero,
    RefusesAReturnAtTheBottomAsUnfit,
    WritesTheResultOfAFullCall,
    // what is made of the handler
    PreparesNoHandler,
    TakesAnyHandler,
    TakesOwnerZeroForNoHandler,
    TakesLabelOneForNoHandler,
    RefusesTheHandlerAtTheBottom,
    NeverDrops,
    DropsTheHandlerToo,
    KeepsTheHandlersBit,
    ClearsTheCalledBit,
    ForgetsTheCallersResult,
    LeavesThePlacesAbove,
    LooksForARowWithoutAHandler,
    LooksForARowAtTheBottom,
}

/// The reference with one fault.
struct Faulty(Fault);

/// The bit of the scheme called as if the call had not cleared it.
fn keep_bit(here: &Label, before: &State, after: &mut State) {
    let bit = usize::from(here.called).max(1) - 1;
    after.results[bit] = before.results[bit];
    if usize::from(number_at_top(before)).max(1) - 1 == bit {
        write(after, before, here);
    }
}

fn number_at_top(state: &State) -> u8 {
    state.numbers[usize::from(state.depth) - 1]
}

impl Faulty {
    fn fits(&self, held: &Held, state: &State) -> bool {
        let (size, depth) = (usize::from(state.size), usize::from(state.depth));
        let roughly = (1..=32).contains(&size)
            && (1..=size).contains(&depth)
            && state.places[..depth].iter().all(|place| usize::from(*place) < held.labels.len());
        if !roughly {
            return false;
        }
        let (mut held, mut state) = (held.clone(), *state);
        let filled = state.places;
        match self.0 {
            AcceptsAnyState => return true,
            AcceptsAnyBottom => {
                held.labels[usize::from(filled[0])].owner = 1;
                (state.numbers[0], state.servers[0]) = (1, 1);
            }
            AcceptsAnyPlaceAbove => state.places[depth..].fill(0),
            AcceptsAnyOwnerAbove => {
                for (label, server) in filled[..depth].iter().zip(&mut state.servers).skip(1) {
                    let owner = held.labels[usize::from(*label)].owner;
                    if (2..=held.entries.len()).contains(&usize::from(owner)) {
                        *server = owner;
                    }
                }
            }
            AcceptsAnyKept => {
                for kept in &filled[..depth - 1] {
                    held.labels[usize::from(*kept)].kind = 1;
                }
            }
            _ => self.misplace(&mut held, &mut state),
        }
        held.fits(&state)
    }

    /// The held image by which a tick goes wrong.
    fn spoilt(&self, held: &Held) -> Held {
        let mut held = held.clone();
        for label in &mut held.labels {
            match self.0 {
                KeepsTheBitForResultsAbove if label.result > 2 => label.result = 0,
                WritesOneForResultsAbove if label.result > 2 => label.result = 2,
                _ => {}
            }
        }
        for label in 2..held.labels.len() {
            let Label { kind, called, .. } = held.labels[label];
            for row in &mut held.rows[label] {
                match self.0 {
                    HeedsEveryFunctionBit if kind != FUNCTION_CALL && row.function_bit != 2 => {
                        (row.care, row.values) = (0, 1);
                    }
                    MatchesFunctionBitsAbove if row.function_bit > 2 => row.function_bit = 2,
                    MatchesNoBitOfSchemeZero if called == 0 && row.function_bit < 2 => row.function_bit = 3,
                    _ => {}
                }
            }
        }
        held
    }

    fn tick_of(&self, held: &Held, state: &State, word: u16) -> Result<Advanced, Refusal> {
        if self.0 == ChecksTheStateAtEachTick && !held.fits(state) {
            return Err(Refusal::Unfit);
        }
        let top = usize::from(state.depth) - 1;
        let number = usize::from(state.places[top]);
        let Some(here) = held.labels.get(number) else {
            let mut home = *state;
            home.places[top] = held.entries[0];
            let gone = Advanced { mask: 0, code: 0x04, state: home };
            return if self.0 == GoesHomeFromLabelsAbove {
                Ok(gone)
            } else {
                Err(Refusal::NoRow { ticks: 0 })
            };
        };
        if self.0 == RefusesAReturnAtTheBottomAsUnfit && here.kind == RETURN && top == 0 {
            return Err(Refusal::Unfit);
        }
        let mut held = held.clone();
        if self.0 == WritesNothingForNumberZero && number_at_top(state) == 0 {
            held.labels[number].result = 0;
        }
        let (held, here) = (&held, &held.labels[number]);
        let mut advanced = match self.handled(held, here, state) {
            Some(ticked) => ticked?,
            None => self.spoilt(held).tick(state, word)?,
        };
        if advanced.code == 0x60 {
            self.spoil_drop(held, here, state, &mut advanced.state);
            return Ok(advanced);
        }
        match self.0 {
            EmptiesTheStackAtHome if here.kind == HOME => {
                let entry = advanced.state.places[top];
                (advanced.state.depth, advanced.state.places) = (1, [0; 32]);
                advanced.state.places[0] = entry;
            }
            CallsLabelZeroForSchemeZero if here.calls() && here.called == 0 => {
                advanced.state.places[top + 1] = 0;
            }
            EntersTheLastSchemeForOneAbove if here.calls() => {
                let server = usize::from(advanced.state.servers[top + 1]);
                if server > held.entries.len() {
                    advanced.state.places[top + 1] = held.entries[held.entries.len() - 1];
                }
            }
            TakesNumberZeroForServedByItself if here.calls() && here.called == 0 => {
                (advanced.state.places[top + 1], advanced.state.servers[top + 1]) = (held.entries[0], 0);
            }
            NamesSchemeOneForSchemeZero if here.calls() && here.called == 0 => advanced.code += 1,
            KeepsTheCalledBit if here.calls() && here.called > 0 => {
                keep_bit(here, state, &mut advanced.state)
            }
            ClearsNothingForSchemeZero if here.calls() && here.called == 0 => {
                keep_bit(here, state, &mut advanced.state);
            }
            _ => {}
        }
        Ok(advanced)
    }

    fn ticks(
        &self,
        held: &Held,
        state: &mut State,
        words: &[u16],
        masks: &mut [u32],
        codes: &mut [u8],
    ) -> Answer {
        for (count, word) in words.iter().enumerate() {
            match self.tick_of(held, state, *word) {
                Ok(advanced) => {
                    (masks[count], codes[count]) = (advanced.mask, advanced.code);
                    *state = advanced.state;
                }
                Err(refusal) => {
                    if self.0 == WritesTheResultOfAFullCall && refusal.number() == 17 {
                        let label = state.places[usize::from(state.depth) - 1];
                        let before = *state;
                        write(state, &before, &held.labels[usize::from(label)]);
                    }
                    return Err(refusal.after(count));
                }
            }
        }
        Ok(words.len())
    }

    /// What is wrong with the notes of a prepared table.
    fn misnote(&self, image: &[u8], table: &mut [u8]) {
        let image = entry::image_from_text(image).expect("an accepted image");
        for label in 0..image.labels.len() {
            let at = 10 * (1 + image.entries.len() + label);
            let own = image.rows.iter().any(|row| usize::from(row.from) == label);
            let noted = u16::from_le_bytes([table[at], table[at + 1]]);
            let note = match self.0 {
                NotesNothing => 0x11 + 256 * label as u16,
                NotesOnlyOwnRows if !own => 0,
                NotesTheHighByteFirst => noted.swap_bytes(),
                NotesTheFrameAfter => noted + 1,
                _ => noted,
            };
            table[at..at + 2].copy_from_slice(&note.to_le_bytes());
        }
    }
}

/// Writes a label's result to the bit of the number that its scheme was called by before.
fn write(state: &mut State, before: &State, label: &Label) {
    if label.result != 0 {
        state.results[usize::from(number_at_top(before)).max(1) - 1] = label.result == 2;
    }
}

impl Library for Faulty {
    as_the_reference!(
        chart_calls,
        check_image,
        cause,
        list_rows,
        minimise,
        count_fillings,
        check_table,
        sum,
        run,
        priced_run,
        rebindings,
        spins,
        value_calls,
    );

    fn prepare(&self, image: &[u8], table: &mut [u8]) -> Answer {
        let answer = entry::prepare(image, table);
        let writes = match self.0 {
            PreparesBeforeItChecks => !matches!(answer, Ok(_) | Err(Refusal::NoRoom)),
            PreparesIntoShortBuffers => answer == Err(Refusal::NoRoom),
            _ => false,
        };
        if let (true, Some(byte)) = (writes, table.first_mut()) {
            *byte = !*byte;
        }
        let Ok(count) = answer else { return answer };
        self.misnote(image, table);
        if self.0 == PreparesNoHandler {
            table[5] = 0;
        }
        match self.0 {
            PreparesPastTheCount if count < table.len() => table[count] = !table[count],
            CountsFrames => return Ok(count / 10),
            _ => {}
        }
        answer
    }

    fn live_run(
        &self,
        table: &[u8],
        state: &mut State,
        words: &[u16],
        masks: &mut [u32],
        codes: &mut [u8],
    ) -> Answer {
        let held = self.held(table)?;
        let short = masks.len() < words.len() || codes.len() < words.len();
        match (self.fits(&held, state), short) {
            (false, true) if self.0 == LooksForRoomFirst => Err(Refusal::NoRoom),
            (false, _) => Err(Refusal::Unfit),
            (true, true) => {
                if self.0 == ForgetsTheStateOnShortBuffers {
                    *state = State::NONE;
                }
                Err(Refusal::NoRoom)
            }
            (true, false) => self.ticks(&held, state, words, masks, codes),
        }
    }
}

#[test]
fn every_fault_is_found() {
    for &fault in FAULTS {
        is_found(format_args!("{fault:?}"), &Faulty(fault), 60_000);
    }
}

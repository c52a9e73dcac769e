//! Libraries with one fault each in what they make of the handler: the comparison must find every one.

#[macro_use]
#[path = "../common/mod.rs"]
mod common;
mod marks;

use std::cell::Cell;

use common::is_found;
use reference::entry::{self, image_from_text, run_ticks};
use reference::frames::{frames_of, text_of, IMAGE_TEXT};
use reference::image::{Image, Label, OPERATION_CALL, RETURN};
use reference::machine::{self, handles, Advanced};
use reference::{as_the_reference, Answer, Library, Refusal, State};

faults! {
    // what a chart marks, and where an image names it
    RefusesEveryMark,
    AllowsAMarkOnSchemeOne,
    AllowsTwoMarks,
    AllowsOtherMarks,
    TriesMarksBeforeSchemes,
    TriesMarksAfterArcs,
    ForgetsTheHandler,
    AllowsSchemeOneInTheHeader,
    AllowsAnySchemeInTheHeader,
    // which states fit
    RefusesTheHandlerAtTheBottom,
    RefusesLabelOneAtTheBottom,
    AllowsLabelOneWithoutAHandler,
    AllowsAnySchemeAtTheBottom,
    // when a tick drops
    NeverDrops,
    DropsOnePlaceEarly,
    DropsTheHandlerToo,
    TakesACalledHandlerForOneAtTheBottom,
    CountsTheHandlerZero,
    // what a drop does
    EmitsNoMask,
    EmitsTheCodeOfTheCall,
    KeepsTheHandlersBit,
    ClearsTheCalledBit,
    ForgetsTheCallersResult,
    WritesTheResultLast,
    LeavesThePlacesAbove,
    KeepsTheBottom,
    // how the handler ends
    ReturnsToTheDroppedCaller,
    LooksForARow,
    SkipsTheHomeTick,
    EmitsTheCodeOfHome,
    ClearsItsBitAtTheEnd,
}

/// The reference with one fault. `dropped` is the label whose call was the last drop of a run.
struct Faulty {
    fault: Fault,
    dropped: Cell<Option<u8>>,
}

/// A full stack with the same top, but a label of scheme 1 at the bottom.
fn above_label_0(state: &State) -> State {
    let top = usize::from(state.depth) - 1;
    let mut above = State { size: 2, depth: 2, places: [0; 32], ..*state };
    (above.places[1], above.numbers[1]) = (state.places[top], state.numbers[top]);
    above
}

/// Writes a label's result to the bit of the number that its scheme was called by before.
fn write(results: &mut [bool; 16], before: &State, label: &Label) {
    let number = before.numbers[usize::from(before.depth) - 1];
    if label.result != 0 {
        results[usize::from(number) - 1] = label.result == 2;
    }
}

impl Faulty {
    fn fits(&self, image: &Image, state: &State) -> bool {
        let bottom = state.places[0];
        let owner = image.labels.get(usize::from(bottom)).map_or(0, |label| label.owner);
        let handler = match self.fault {
            RefusesTheHandlerAtTheBottom => 0,
            RefusesLabelOneAtTheBottom if bottom == 1 => 0,
            AllowsLabelOneWithoutAHandler if bottom == 1 => 2,
            AllowsAnySchemeAtTheBottom if image.handler != 0 && owner != 0 => owner,
            _ => image.handler,
        };
        let mut state = *state;
        if handler != image.handler && handler != 0 {
            let scheme = usize::from(handler) - 1;
            if !(1..=16).contains(&state.numbers[0]) {
                return false;
            }
            (state.numbers[0], state.servers[0], state.serving[scheme]) = (handler, handler, handler);
        }
        machine::fits(&Image { handler, ..image.clone() }, &state)
    }

    fn tick_of(&self, image: &Image, state: &State, word: u16) -> Result<Advanced, Refusal> {
        let top = usize::from(state.depth) - 1;
        let here = image.labels[usize::from(state.places[top])];
        let full = here.calls() && state.depth == state.size;
        let early = here.calls() && state.depth + 1 == state.size;
        let handled = handles(image, state.places[0]);
        let called = |label: &u8| image.labels[usize::from(*label)].called == image.handler;
        let mut before = *state;
        match self.fault {
            NeverDrops if full => return Err(Refusal::Full { ticks: 0 }),
            TakesACalledHandlerForOneAtTheBottom if full && state.places[..top].iter().any(called) => {
                return Err(Refusal::Full { ticks: 0 });
            }
            DropsOnePlaceEarly if early && image.handler != 0 && !handled => before.size = state.depth,
            DropsTheHandlerToo if full && handled => before = above_label_0(state),
            CountsTheHandlerZero if handled && here.calls() => before.size = (state.size + 1).min(32),
            _ => {}
        }
        let mut advanced = machine::tick(image, &before, word)?;
        advanced.state.size = state.size;
        if advanced.code == 0x60 {
            self.dropped.set(Some(state.places[top]));
            self.spoil_drop(image, state, &here, &mut advanced);
        }
        if here.kind == RETURN && top == 0 {
            return self.last_return(image, state, word, advanced);
        }
        Ok(advanced)
    }

    /// What the faults make of a drop.
    fn spoil_drop(&self, image: &Image, before: &State, here: &Label, advanced: &mut Advanced) {
        let handler = usize::from(image.handler) - 1;
        let after = &mut advanced.state;
        match self.fault {
            EmitsNoMask => advanced.mask = 0,
            EmitsTheCodeOfTheCall => {
                advanced.code = here.called + if here.kind == OPERATION_CALL { 0x10 } else { 0x40 };
            }
            KeepsTheHandlersBit => {
                after.results[handler] = before.results[handler];
                write(&mut after.results, before, here);
            }
            ClearsTheCalledBit => after.results[usize::from(here.called) - 1] = false,
            ForgetsTheCallersResult => {
                after.results = before.results;
                after.results[handler] = false;
            }
            WritesTheResultLast => write(&mut after.results, before, here),
            LeavesThePlacesAbove => after.places[1..].copy_from_slice(&before.places[1..]),
            KeepsTheBottom if before.size > 1 => {
                for (after, before) in [
                    (&mut after.places, &before.places),
                    (&mut after.numbers, &before.numbers),
                    (&mut after.servers, &before.servers),
                ] {
                    (after[0], after[1]) = (before[0], after[0]);
                }
                after.depth = 2;
            }
            _ => {}
        }
    }

    /// What the faults make of the handler's return.
    fn last_return(
        &self,
        image: &Image,
        before: &State,
        word: u16,
        mut advanced: Advanced,
    ) -> Result<Advanced, Refusal> {
        let after = &mut advanced.state;
        match self.fault {
            ReturnsToTheDroppedCaller => {
                if let Some(caller) = self.dropped.get() {
                    let mut deeper = State { depth: 2, ..*before };
                    (deeper.places[0], deeper.places[1]) = (caller, 1);
                    return machine::tick(image, &deeper, word);
                }
            }
            LooksForARow => return Err(Refusal::NoRow { ticks: 0 }),
            SkipsTheHomeTick => after.places[0] = image.entries[0],
            EmitsTheCodeOfHome => advanced.code = 0x04,
            ClearsItsBitAtTheEnd => after.results[usize::from(image.handler) - 1] = false,
            _ => {}
        }
        Ok(advanced)
    }
}

impl Library for Faulty {
    as_the_reference!(
        write_chart,
        places,
        dry_run,
        cause,
        list_rows,
        minimise,
        count_fillings,
        prepare,
        priced_run,
        live_run,
        check_table,
        sum,
        rebindings,
        spins,
        value_calls,
    );

    fn read_chart(&self, text: &[u8], out: &mut [u8]) -> Answer {
        self.judged(text).and_then(|text| entry::read_chart(&text, out))
    }

    fn translate(&self, text: &[u8], out: &mut [u8]) -> Answer {
        let answer = entry::translate(text, out);
        if let (ForgetsTheHandler, Ok(count)) = (self.fault, answer) {
            let image = Image { handler: 0, ..image_from_text(&out[..count]).expect("an image") };
            out[..count].copy_from_slice(&text_of(&image.frames()));
        }
        answer
    }

    fn check_image(&self, text: &[u8]) -> Answer {
        let Ok(mut frames) = frames_of(text, IMAGE_TEXT) else {
            return entry::check_image(text);
        };
        match self.fault {
            AllowsSchemeOneInTheHeader if frames[0][5] == 1 => frames[0][5] = 0,
            AllowsAnySchemeInTheHeader if frames[0][5] > frames[0][1] => frames[0][5] = 0,
            _ => {}
        }
        entry::check_image(&text_of(&frames))
    }

    fn run(
        &self,
        text: &[u8],
        state: &mut State,
        words: &[u16],
        masks: &mut [u32],
        codes: &mut [u8],
    ) -> Answer {
        let Ok(image) = image_from_text(text) else {
            return entry::run(text, state, words, masks, codes);
        };
        if !self.fits(&image, state) {
            return Err(Refusal::Unfit);
        }
        if masks.len() < words.len() || codes.len() < words.len() {
            return Err(Refusal::NoRoom);
        }
        self.dropped.set(None);
        run_ticks(|state, word| self.tick_of(&image, state, word), state, words, masks, codes)
    }
}

#[test]
fn every_fault_is_found() {
    for &fault in FAULTS {
        let library = Faulty { fault, dropped: Cell::new(None) };
        is_found(format_args!("{fault:?}"), &library, 20_000);
    }
}

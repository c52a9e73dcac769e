//! Libraries with one fault each in what they make of swapped schemes: the comparison must find every one, live or not.

#[macro_use]
#[path = "../common/mod.rs"]
mod common;
mod fitness;
mod ticks;

use std::cell::Cell;

use common::is_found;
use comparison::compare::compare_lists;
use reference::entry::{self, image_from_text, run_ticks};
use reference::live::Held;
use reference::machine::{self, Advanced};
use reference::state::Shape;
use reference::{as_the_reference, Answer, Library, Reference, Refusal, State};

faults! {
    // what a fresh state serves and remembers
    ServesNothingAtFirst,
    RemembersNothingAtFirst,
    // what a rebinding does
    KeepsTheBinding,
    ChangesAnOpenScheme,
    ActsOnTheNextReturn,
    BindsTheSchemeToTheNumber,
    SwapsTheTwo,
    BindsTheNextNumber,
    BindsEveryNumber,
    CountsARebinding,
    // which rebindings are refused
    BindsWhatItRefuses,
    BindsInAStateThatDoesNotFit,
    RebindsTheHandler,
    RebindsTheHandlerToItself,
    RefusesTheHandlersScheme,
    RefusesWhatServesAlready,
    RefusesAtAFullStack,
    AllowsNumberOne,
    AllowsSchemeOne,
    AllowsNumbersAboveTheLast,
    AllowsSchemesAboveTheLast,
    CutsTheNumber,
    CutsTheScheme,
    TriesTheNumbersBeforeTheState,
    // what ticks do
    WritesBitsByTheServingScheme,
    ClearsTheBitOfTheServingScheme,
    ReadsTheBitOfTheServingScheme,
    ShowsTheServingSchemeInCodes,
    EntersTheSchemeOfTheNumber,
    RemembersTheServingSchemeTwice,
    RemembersTheNumberTwice,
    LeavesTheNumberAbove,
    LeavesTheServerAbove,
    ForgetsBindingsAtHome,
    ForgetsBindingsAtADrop,
    KeepsTheCallersNumberAtADrop,
    KeepsTheHandlersNumberAtItsReturn,
    // which states fit, one fault for each ground
    AllowsAnyNumberAtTheBottom,
    AllowsAnyServerAtTheBottom,
    AllowsAnyNumberAboveACall,
    AllowsAnyServerAboveACall,
    ComparesTheOwnerWithTheNumber,
    ComparesNoOwner,
    AllowsNumbersAboveTheDepth,
    AllowsServersAboveTheDepth,
    AllowsServersFromOutside,
    AllowsSwapsAboveTheLast,
    AllowsASwapOfTheHandler,
    TriesNumberOne,
    RefusesASwap,
}

/// The reference with one fault, in its live calls or in the others. `pending` is a rebinding that has not acted yet.
struct Faulty {
    fault: Fault,
    live: bool,
    pending: Cell<Option<(usize, usize)>>,
}

const BAD: Answer = Err(Refusal::BadRebinding);

impl Faulty {
    /// The number and the scheme as the fault has them, so that the reference then goes wrong.
    fn taken_for(&self, shape: Shape, number: usize, scheme: usize) -> (usize, usize) {
        let within = |value: usize| value.clamp(2, shape.schemes.max(2));
        match self.fault {
            BindsTheSchemeToTheNumber => (scheme, number),
            BindsTheNextNumber => (number.saturating_add(1), scheme),
            AllowsNumberOne if number == 1 => (2, scheme),
            AllowsSchemeOne if scheme == 1 => (number, 2),
            AllowsNumbersAboveTheLast if number <= 16 => (within(number), scheme),
            AllowsSchemesAboveTheLast if scheme <= 16 => (number, within(scheme)),
            CutsTheNumber => (number & 0xFF, scheme),
            CutsTheScheme => (number, scheme & 0xFF),
            _ => (number, scheme),
        }
    }

    /// A rebinding of a state that fits.
    fn bound(
        &self,
        shape: Shape,
        state: &mut State,
        (number, scheme): (usize, usize),
        right: Answer,
    ) -> Answer {
        let full = state.depth == state.size;
        let handlers = number == usize::from(shape.handler) && shape.handler != 0;
        let known = (2..=shape.schemes).contains(&number) && (2..=shape.schemes).contains(&scheme);
        match (self.fault, right) {
            (RefusesTheHandlersScheme, Ok(_)) if scheme == usize::from(shape.handler) => BAD,
            (RefusesWhatServesAlready, Ok(_)) if usize::from(state.serving[number - 1]) == scheme => BAD,
            (RefusesAtAFullStack, Ok(_)) if full => BAD,
            (KeepsTheBinding, Ok(_)) => right,
            (ActsOnTheNextReturn, Ok(_)) => {
                self.pending.set(Some((number, scheme)));
                right
            }
            (_, Ok(_)) => {
                state.serving[number - 1] = scheme as u8;
                self.spoil(shape, state, number, scheme);
                if self.fault == CountsARebinding {
                    return Ok(1);
                }
                right
            }
            (RebindsTheHandler, _) if handlers && known => {
                state.serving[number - 1] = scheme as u8;
                Ok(0)
            }
            (RebindsTheHandlerToItself, _) if handlers && scheme == number => Ok(0),
            (BindsWhatItRefuses, _) if (1..=16).contains(&number) => {
                state.serving[number - 1] = scheme as u8;
                right
            }
            _ => right,
        }
    }

    /// What the faults make of a rebinding that was made.
    fn spoil(&self, shape: Shape, state: &mut State, number: usize, scheme: usize) {
        match self.fault {
            SwapsTheTwo if scheme != usize::from(shape.handler) => state.serving[scheme - 1] = number as u8,
            BindsEveryNumber => {
                for other in (2..=shape.schemes).filter(|other| *other != usize::from(shape.handler)) {
                    state.serving[other - 1] = scheme as u8;
                }
            }
            ChangesAnOpenScheme => {
                for at in 1..usize::from(state.depth) {
                    if usize::from(state.numbers[at]) == number {
                        state.servers[at] = scheme as u8;
                    }
                }
            }
            _ => {}
        }
    }

    /// A rebinding on what holds an image of this shape.
    fn rebound(
        &self,
        shape: Shape,
        fits: &dyn Fn(&State) -> bool,
        state: &mut State,
        (number, scheme): (usize, usize),
    ) -> Answer {
        let (number, scheme) = self.taken_for(shape, number, scheme);
        let allowed = reference::state::can_rebind(shape.schemes, shape.handler, number, scheme);
        match (self.accepts(shape, fits, state), fits(state)) {
            (false, _) if self.fault == TriesTheNumbersBeforeTheState && !allowed => BAD,
            (false, _) => {
                if self.fault == BindsInAStateThatDoesNotFit && allowed {
                    state.serving[number - 1] = scheme as u8;
                }
                Err(Refusal::Unfit)
            }
            (true, false) => Ok(0),
            (true, true) => {
                let right = if allowed { Ok(0) } else { BAD };
                self.bound(shape, state, (number, scheme), right)
            }
        }
    }

    /// A run on what holds an image of this shape.
    fn ran(
        &self,
        shape: Shape,
        fits: &dyn Fn(&State) -> bool,
        tick: &dyn Fn(&State, u16) -> Result<Advanced, Refusal>,
        state: &mut State,
        lent: (&[u16], &mut [u32], &mut [u8]),
    ) -> Answer {
        let (words, masks, codes) = lent;
        if !self.accepts(shape, fits, state) {
            return Err(Refusal::Unfit);
        }
        if !fits(state) {
            return Ok(words.len());
        }
        if masks.len() < words.len() || codes.len() < words.len() {
            return Err(Refusal::NoRoom);
        }
        run_ticks(|state, word| self.tick_of(shape, tick, state, word), state, words, masks, codes)
    }
}

impl Library for Faulty {
    as_the_reference!(chart_calls, image_calls, priced_run, spins, meaning, little_chart);

    fn fresh(&self, size: usize) -> Result<State, Refusal> {
        let mut state = entry::fresh(size)?;
        match self.fault {
            ServesNothingAtFirst => state.serving = [0; 16],
            RemembersNothingAtFirst => (state.numbers, state.servers) = ([0; 32], [0; 32]),
            _ => {}
        }
        Ok(state)
    }

    fn run(
        &self,
        text: &[u8],
        state: &mut State,
        words: &[u16],
        masks: &mut [u32],
        codes: &mut [u8],
    ) -> Answer {
        match image_from_text(text) {
            Ok(image) if !self.live => {
                let fits = |state: &State| machine::fits(&image, state);
                let tick = |state: &State, word| machine::tick(&image, state, word);
                self.ran(image.shape(), &fits, &tick, state, (words, masks, codes))
            }
            _ => Reference.run(text, state, words, masks, codes),
        }
    }

    fn live_run(
        &self,
        table: &[u8],
        state: &mut State,
        words: &[u16],
        masks: &mut [u32],
        codes: &mut [u8],
    ) -> Answer {
        match Held::of(table) {
            Ok(held) if self.live => {
                let fits = |state: &State| held.fits(state);
                let tick = |state: &State, word| held.tick(state, word);
                self.ran(held.shape(), &fits, &tick, state, (words, masks, codes))
            }
            _ => Reference.live_run(table, state, words, masks, codes),
        }
    }

    fn rebind(&self, text: &[u8], state: &mut State, number: usize, scheme: usize) -> Answer {
        match image_from_text(text) {
            Ok(image) if !self.live => {
                let fits = |state: &State| machine::fits(&image, state);
                self.rebound(image.shape(), &fits, state, (number, scheme))
            }
            _ => Reference.rebind(text, state, number, scheme),
        }
    }

    fn live_rebind(&self, table: &[u8], state: &mut State, number: usize, scheme: usize) -> Answer {
        match Held::of(table) {
            Ok(held) if self.live => {
                let fits = |state: &State| held.fits(state);
                self.rebound(held.shape(), &fits, state, (number, scheme))
            }
            _ => Reference.live_rebind(table, state, number, scheme),
        }
    }
}

#[test]
fn every_fault_is_found() {
    for live in [false, true] {
        for &fault in FAULTS {
            let library = Faulty { fault, live, pending: Cell::new(None) };
            is_found(format_args!("{fault:?}, live: {live}"), &library, 40_000);
        }
    }
}

/// The lists of demand 3 find these by themselves, with the walk alone for a judge.
#[test]
fn lists_alone_find_faults() {
    let faults = [
        KeepsTheBinding,
        ChangesAnOpenScheme,
        ActsOnTheNextReturn,
        BindsWhatItRefuses,
        RebindsTheHandler,
        WritesBitsByTheServingScheme,
        ClearsTheBitOfTheServingScheme,
        ReadsTheBitOfTheServingScheme,
        ShowsTheServingSchemeInCodes,
        EntersTheSchemeOfTheNumber,
        RemembersTheServingSchemeTwice,
        ForgetsBindingsAtHome,
        ForgetsBindingsAtADrop,
    ];
    for live in [false, true] {
        for fault in faults {
            let library = Faulty { fault, live, pending: Cell::new(None) };
            assert!(compare_lists(&library, 5, 20_000).is_err(), "{fault:?}, live: {live}");
        }
    }
}

//! What ticks wrongly make of numbers and of the schemes that serve them.

use reference::image::{Label, HOME, OPERATION_CALL, RETURN};
use reference::machine::Advanced;
use reference::state::{Shape, OWN};
use reference::{Refusal, State};

use super::{Fault::*, Faulty};

/// The place of a number or a scheme in a list that begins with 1.
fn place(number: u8) -> usize {
    usize::from(number).clamp(1, 16) - 1
}

impl Faulty {
    pub fn tick_of(
        &self,
        shape: Shape,
        tick: &dyn Fn(&State, u16) -> Result<Advanced, Refusal>,
        state: &State,
        word: u16,
    ) -> Result<Advanced, Refusal> {
        let top = usize::from(state.depth) - 1;
        let here = shape.label(state.places[top]);
        let mut before = *state;
        match self.fault {
            EntersTheSchemeOfTheNumber => before.serving = OWN,
            WritesBitsByTheServingScheme if state.servers[top] <= 16 => {
                before.numbers[top] = state.servers[top]
            }
            ReadsTheBitOfTheServingScheme if here.kind == RETURN && top > 0 => {
                let called = place(shape.label(state.places[top - 1]).called);
                before.results[called] = state.results[place(state.servers[top])];
            }
            _ => {}
        }
        let mut advanced = tick(&before, word)?;
        advanced.state.serving = state.serving;
        if here.kind == RETURN {
            advanced.state.results = state.results;
            self.spoil_return(top, state, &mut advanced.state);
        } else if advanced.code == 0x60 {
            self.spoil_drop(state, &mut advanced.state);
        } else if here.calls() {
            self.spoil_call(top, &here, state, &mut advanced);
        } else {
            if self.fault == WritesBitsByTheServingScheme {
                advanced.state.numbers[top] = state.numbers[top];
            }
            if self.fault == ForgetsBindingsAtHome && here.kind == HOME {
                advanced.state.serving = OWN;
            }
        }
        Ok(advanced)
    }

    fn spoil_call(&self, top: usize, here: &Label, before: &State, advanced: &mut Advanced) {
        let after = &mut advanced.state;
        let server = after.servers[top + 1];
        match self.fault {
            WritesBitsByTheServingScheme => after.numbers[top] = before.numbers[top],
            ClearsTheBitOfTheServingScheme => {
                let (called, number) = (place(here.called), place(before.numbers[top]));
                after.results[called] = before.results[called];
                if here.result != 0 {
                    after.results[number] = here.result == 2;
                }
                after.results[place(server)] = false;
            }
            ShowsTheServingSchemeInCodes => {
                let base = if here.kind == OPERATION_CALL { 0x10u8 } else { 0x40 };
                advanced.code = base.wrapping_add(server);
            }
            RemembersTheServingSchemeTwice => after.numbers[top + 1] = server.min(16),
            RemembersTheNumberTwice => after.servers[top + 1] = here.called,
            _ => {}
        }
    }

    fn spoil_return(&self, top: usize, before: &State, after: &mut State) {
        match self.fault {
            LeavesTheNumberAbove if top > 0 => after.numbers[top] = before.numbers[top],
            LeavesTheServerAbove if top > 0 => after.servers[top] = before.servers[top],
            KeepsTheHandlersNumberAtItsReturn if top == 0 => {
                (after.numbers[0], after.servers[0]) = (before.numbers[0], before.servers[0]);
            }
            ActsOnTheNextReturn => {
                if let Some((number, scheme)) = self.pending.take() {
                    after.serving[number - 1] = scheme as u8;
                }
            }
            _ => {}
        }
    }

    fn spoil_drop(&self, before: &State, after: &mut State) {
        match self.fault {
            ForgetsBindingsAtADrop => after.serving = OWN,
            KeepsTheCallersNumberAtADrop => {
                let top = usize::from(before.depth) - 1;
                (after.numbers[0], after.servers[0]) = (before.numbers[top].max(1), before.servers[top]);
            }
            _ => {}
        }
    }
}

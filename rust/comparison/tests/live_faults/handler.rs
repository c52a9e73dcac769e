//! What is wrongly made of a table's handler.

use reference::image::{Label, RETURN};
use reference::live::Held;
use reference::machine::Advanced;
use reference::{Refusal, State};

use super::{write, Fault::*, Faulty};

impl Faulty {
    /// The handler or the bottom's label as fitness wrongly goes by it.
    pub fn misplace(&self, held: &mut Held, state: &mut State) {
        let bottom = state.places[0];
        let label = &mut held.labels[usize::from(bottom)];
        match self.0 {
            TakesOwnerZeroForNoHandler if held.handler == 0 && label.owner == 0 && bottom > 1 => {
                label.owner = 1;
                (state.numbers[0], state.servers[0]) = (1, 1);
            }
            TakesLabelOneForNoHandler if held.handler == 0 && bottom == 1 => {
                label.owner = 1;
                (state.numbers[0], state.servers[0]) = (1, 1);
            }
            RefusesTheHandlerAtTheBottom => held.handler = 0,
            _ => {}
        }
    }

    /// A tick that goes wrong as a whole.
    pub fn handled(&self, held: &Held, here: &Label, state: &State) -> Option<Result<Advanced, Refusal>> {
        let full = here.calls() && state.depth == state.size;
        let alone = here.kind == RETURN && state.depth == 1;
        match self.0 {
            NeverDrops if full => Some(Err(Refusal::Full { ticks: 0 })),
            DropsTheHandlerToo if full && held.handles(state.places[0]) => {
                let mut before = State { size: 2, depth: 2, places: [0; 32], ..*state };
                let top = usize::from(state.depth) - 1;
                (before.places[1], before.numbers[1]) = (state.places[top], state.numbers[top]);
                Some(held.tick(&before, 0).map(|advanced| Advanced {
                    state: State { size: state.size, ..advanced.state },
                    ..advanced
                }))
            }
            LooksForARowWithoutAHandler if alone && held.handler == 0 => {
                Some(Err(Refusal::NoRow { ticks: 0 }))
            }
            LooksForARowAtTheBottom if alone => Some(Err(Refusal::NoRow { ticks: 0 })),
            _ => None,
        }
    }

    /// What the faults make of a drop.
    pub fn spoil_drop(&self, held: &Held, here: &Label, before: &State, after: &mut State) {
        let handler = usize::from(held.handler) - 1;
        match self.0 {
            KeepsTheHandlersBit => {
                after.results[handler] = before.results[handler];
                write(after, before, here);
            }
            ClearsTheCalledBit => after.results[usize::from(here.called).max(1) - 1] = false,
            ForgetsTheCallersResult => {
                after.results = before.results;
                after.results[handler] = false;
            }
            LeavesThePlacesAbove => after.places[1..].copy_from_slice(&before.places[1..]),
            _ => {}
        }
    }
}

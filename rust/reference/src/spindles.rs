//! Four spindles that have their places from one store: when their list is in order (15), and the tick of one of them (17, 26, 18).

use crate::answer::{refuse_if, Refusal};
use crate::machine::Advanced;
use crate::state::State;
use interface::{Tick, SPINDLES, STORE};

/// A list of states, and how many places are recorded as taken by them.
pub struct Head<'a> {
    pub states: &'a mut [State],
    pub taken: &'a mut usize,
}

impl Head<'_> {
    /// Whether the list is of four states whose depths sum to the record, and that is no more than there are places. Nothing but its
    /// depth is looked at in a state.
    fn in_order(&self) -> bool {
        let depths: usize = self.states.iter().map(|state| usize::from(state.depth)).sum();
        self.states.len() == SPINDLES && depths == *self.taken && *self.taken <= STORE
    }

    /// The tick of a spindle of 0 to 3 on what was accepted for its image, by whether its state fits there and what it does there:
    /// refusals 15, 17, 26 and 18.
    pub fn turn(
        self,
        spindle: usize,
        fits: impl Fn(&State) -> bool,
        tick: impl Fn(&State) -> Result<Advanced, Refusal>,
    ) -> Result<Tick, Refusal> {
        refuse_if(Refusal::Unfit, !self.in_order() || !fits(&self.states[spindle]))?;
        let before = usize::from(self.states[spindle].depth);
        let Advanced { mask, code, state } = tick(&self.states[spindle])?;
        let after = usize::from(state.depth);
        // only a call takes a place, and one that has room on its own stack gets neither 17 nor 18
        refuse_if(Refusal::NoPlace, after > before && *self.taken == STORE)?;
        *self.taken = *self.taken - before + after;
        self.states[spindle] = state;
        Ok(Tick { mask, code })
    }
}

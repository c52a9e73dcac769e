//! The tick of a spindle in the list of all four.

use interface::{Tick, STORE};
use reference::answer::Refusal;
use reference::state::State;

/// Refusals 15 and 26, and those of the tick, which is made on a copy, or its mask and code.
pub fn turn(
    states: &mut [State],
    taken: &mut usize,
    spindle: usize,
    tick: impl FnOnce(&mut State) -> Result<Tick, Refusal>,
) -> Result<Tick, Refusal> {
    let [a, b, c, d] = states else {
        return Err(Refusal::Unfit);
    };
    let depths = [a, b, c, d].map(|state| usize::from(state.depth)).into_iter().sum();
    if *taken != depths || depths > STORE {
        return Err(Refusal::Unfit);
    }
    let mut after = states[spindle];
    let ticked = tick(&mut after)?;
    let left = depths - usize::from(states[spindle].depth) + usize::from(after.depth);
    if left > STORE {
        return Err(Refusal::NoPlace);
    }
    (states[spindle], *taken) = (after, left);
    Ok(ticked)
}

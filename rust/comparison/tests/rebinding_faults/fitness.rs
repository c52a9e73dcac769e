//! Which states are wrongly taken to fit, or not to.

use reference::state::{Shape, OWN};
use reference::State;

use super::{Fault::*, Faulty};

impl Faulty {
    /// Whether a state is taken to fit: the fault mends what it does not look at.
    pub fn accepts(&self, shape: Shape, fits: &dyn Fn(&State) -> bool, state: &State) -> bool {
        let depth = usize::from(state.depth);
        if !(1..=32).contains(&depth) {
            return false;
        }
        let (mut mended, top) = (*state, depth - 1);
        let callable = |scheme: u8| (2..=shape.schemes).contains(&usize::from(scheme));
        match self.fault {
            AllowsAnyNumberAtTheBottom => mended.numbers[0] = shape.bottom(state.places[0]),
            AllowsAnyServerAtTheBottom => mended.servers[0] = shape.bottom(state.places[0]),
            AllowsAnyNumberAboveACall => {
                (1..depth).for_each(|at| mended.numbers[at] = shape.label(state.places[at - 1]).called);
            }
            AllowsAnyServerAboveACall if top > 0 && !callable(state.servers[top]) => {
                (mended.places[top], mended.servers[top]) = (1, 2);
            }
            ComparesTheOwnerWithTheNumber => {
                (1..depth).filter(|at| callable(state.numbers[*at])).for_each(|at| {
                    mended.servers[at] = state.numbers[at];
                });
            }
            ComparesNoOwner => {
                for at in 1..depth {
                    let owner = shape.label(state.places[at]).owner;
                    if callable(owner) && callable(state.servers[at]) {
                        mended.servers[at] = owner;
                    }
                }
            }
            AllowsNumbersAboveTheDepth => mended.numbers[depth..].fill(0),
            AllowsServersAboveTheDepth => mended.servers[depth..].fill(0),
            AllowsServersFromOutside | AllowsSwapsAboveTheLast | AllowsASwapOfTheHandler => {
                for number in 2..=16 {
                    let unlooked = match self.fault {
                        AllowsSwapsAboveTheLast => usize::from(number) > shape.schemes,
                        AllowsASwapOfTheHandler => number == shape.handler,
                        _ => callable(number) && number != shape.handler,
                    };
                    if unlooked {
                        mended.serving[usize::from(number) - 1] = number;
                    }
                }
            }
            TriesNumberOne => return state.serving[0] == 1 && fits(state),
            RefusesASwap => return state.serving == OWN && fits(state),
            _ => {}
        }
        fits(&mended)
    }
}

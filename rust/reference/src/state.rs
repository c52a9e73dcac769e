//! The machine's state.

use crate::image::Label;
pub use interface::State;

/// The scheme that serves each number, number h's at h - 1.
pub type Binding = [u8; 16];

/// Each number served by its own scheme.
pub const OWN: Binding = [1, 2, 3, 4, 5, 6, 7, 8, 9, 10, 11, 12, 13, 14, 15, 16];

/// Scheme 1 alone is open, at label 0; None for a size that is not 1 to 32.
pub fn fresh_state(size: usize) -> Option<State> {
    if !(1..=32).contains(&size) {
        return None;
    }
    let mut state = State { size: size as u8, serving: OWN, ..State::NONE };
    leave_alone(&mut state, 0, 1);
    Some(state)
}

/// Closes all, and leaves one scheme open at this label, by its own number.
pub fn leave_alone(state: &mut State, label: u8, scheme: u8) {
    state.depth = 1;
    (state.places, state.numbers, state.servers) = ([0; 32], [0; 32], [0; 32]);
    (state.places[0], state.numbers[0], state.servers[0]) = (label, scheme, scheme);
}

/// Whether a number can be rebound to a scheme, where there are so many and this one is the handler, 0 for none; else it is 22.
pub fn can_rebind(schemes: usize, handler: u8, number: usize, scheme: usize) -> bool {
    let callable = 2..=schemes;
    callable.contains(&number) && callable.contains(&scheme) && number != usize::from(handler)
}

/// What a state is made for: labels, how many schemes there are, and the handler, 0 for none.
#[derive(Clone, Copy, Debug)]
pub struct Shape<'a> {
    pub labels: &'a [Label],
    pub schemes: usize,
    pub handler: u8,
}

impl Shape<'_> {
    /// A label, or one of no scheme where there is none of that number.
    pub fn label(&self, number: u8) -> Label {
        self.labels.get(usize::from(number)).copied().unwrap_or(Label::NONE)
    }

    /// The scheme that is open at the bottom where this label is there.
    pub fn bottom(&self, label: u8) -> u8 {
        let handled = self.handler != 0 && (label == 1 || self.label(label).owner == self.handler);
        if handled {
            self.handler
        } else {
            1
        }
    }

    /// A state with these labels in use, as calls lead to it while each number is served by its own scheme.
    pub fn state(&self, size: u8, places: &[u8]) -> State {
        let mut state = State { size, depth: places.len() as u8, serving: OWN, ..State::NONE };
        state.places[..places.len()].copy_from_slice(places);
        self.remember(&mut state);
        state
    }

    /// Makes each place remember the number called beneath it twice, as number and as scheme.
    pub fn remember(&self, state: &mut State) {
        (state.numbers, state.servers) = ([0; 32], [0; 32]);
        let mut scheme = self.bottom(state.places[0]);
        for at in 0..usize::from(state.depth).min(32) {
            (state.numbers[at], state.servers[at]) = (scheme, scheme);
            scheme = self.label(state.places[at]).called;
        }
    }
}

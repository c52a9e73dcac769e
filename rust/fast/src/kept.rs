//! A controller in plain Rust: the machine is taken apart once and kept, and each call is lent a state. It has no table to
//! doubt, only the state.

use super::machine::Machine;
use super::{accepted, spindles, IMAGE_FRAMES};
use interface::Tick;
use reference::answer::{Answer, Refusal};
use reference::state::State;

pub struct Kept {
    machine: Box<Machine>,
}

impl Kept {
    /// The machine of an image, or what the image check refuses.
    pub fn new(image: &[u8]) -> Result<Kept, Refusal> {
        let mut frames = [[0; 10]; IMAGE_FRAMES];
        let (frames, parts) = accepted(image, &mut frames)?;
        Ok(Kept { machine: Box::new(Machine::new(frames, &parts)) })
    }

    /// Refusals 15 to 18; counts ticks.
    pub fn run(&self, state: &mut State, words: &[u16], masks: &mut [u32], codes: &mut [u8]) -> Answer {
        self.machine.run(state, words, masks, codes)
    }

    /// Refusals 15 and 22; counts 0.
    pub fn rebind(&self, state: &mut State, number: usize, scheme: usize) -> Answer {
        self.machine.rebind(state, number, scheme)
    }

    /// Refusals 15, 17 and 18.
    pub fn tick(&self, state: &mut State, word: u16) -> Result<Tick, Refusal> {
        self.machine.live_tick(state, word)
    }

    /// Refusals 15, 17, 26 and 18 of a spindle of 0 to 3.
    pub fn spin(
        &self,
        states: &mut [State],
        taken: &mut usize,
        spindle: usize,
        word: u16,
    ) -> Result<Tick, Refusal> {
        spindles::turn(states, taken, spindle, |state| self.machine.live_tick(state, word))
    }
}

//! How often the stack fills: lists that begin alike share the ticks of that beginning, and one that is stopped stands for all that
//! would go on from there.

use super::machine::{Machine, Stack};
use super::stop::Stop;
use interface::Fillings;
use reference::state::State;

impl<const SCANS: bool> Machine<SCANS> {
    /// Of the lists of so many words, how many run to their end, get 17 and get 18; there are no more than 65,536 of them.
    pub fn count(&self, fresh: &State, ticks: usize, conditions: usize) -> Fillings {
        let (mut counts, mut stack) = (Fillings::default(), Stack::packed(fresh));
        if conditions > 0 {
            self.count_from(&stack, ticks, conditions, &mut counts);
            return counts;
        }
        match (0..ticks).find_map(|_| self.tick(&mut stack, 0).err()) {
            Some(stop) => note(&mut counts, stop, 1),
            None => counts.ended = 1,
        }
        counts
    }

    /// Adds the lists of so many words from this stack on, each word of at least one condition.
    fn count_from(&self, stack: &Stack<u32>, ticks: usize, conditions: usize, counts: &mut Fillings) {
        if ticks == 0 {
            counts.ended += 1;
            return;
        }
        for word in 0..1u32 << conditions {
            let mut after = *stack;
            match self.tick(&mut after, word as u16) {
                Ok(_) => self.count_from(&after, ticks - 1, conditions, counts),
                Err(stop) => note(counts, stop, 1 << (conditions * (ticks - 1))),
            }
        }
    }
}

fn note(counts: &mut Fillings, stop: Stop, lists: u32) {
    match stop {
        Stop::Full => counts.full += lists,
        Stop::NoRow => counts.unmatched += lists,
    }
}

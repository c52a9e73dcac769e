//! Notices that the table or the state in memory is no longer what the library wrote: a bit flipped, or something else wrote there. Each
//! part of the table has a sum, and one part is compared in each tick. The state has a sum too, which is taken after each call that writes
//! it and compared before the next.

use fairleadow::{sum, Machine, State, Table, TABLE};

/// The bytes of a part: with more of them a tick takes longer, and a change is noticed sooner.
const PART: usize = 64;
const PARTS: usize = TABLE.div_ceil(PART);

pub struct Guard {
    next: usize,
    state: u32,
    parts: [u32; PARTS],
}

impl Guard {
    pub fn of(machine: &Machine<&[u8]>) -> Guard {
        let mut parts = [0; PARTS];
        for (part, bytes) in parts.iter_mut().zip(machine.table().bytes().chunks(PART)) {
            *part = sum(0, bytes);
        }
        Guard { next: 0, state: state_sum(machine.state()), parts }
    }

    /// The part that is compared next.
    pub fn next(&self) -> usize {
        self.next
    }

    /// Compares the next part, after the last the first again, and tells whether it has changed. One that has stays the next.
    pub fn table_changed(&mut self, table: &Table<&[u8]>) -> bool {
        let parts = || table.bytes().chunks(PART).zip(&self.parts);
        if parts().nth(self.next).is_none() {
            self.next = 0;
        }
        let changed = parts().nth(self.next).is_none_or(|(bytes, taken)| sum(0, bytes) != *taken);
        self.next += usize::from(!changed);
        changed
    }

    pub fn take_state(&mut self, state: &State) {
        self.state = state_sum(state);
    }

    pub fn state_changed(&self, state: &State) -> bool {
        state_sum(state) != self.state
    }
}

fn state_sum(state: &State) -> u32 {
    sum(0, state.as_bytes())
}

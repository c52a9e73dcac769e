//! What stops a tick, in a byte: a refusal, which has its ticks, would take more room in what each tick hands back.

use reference::answer::Refusal;

#[derive(Clone, Copy)]
pub enum Stop {
    Full,
    NoRow,
}

impl Stop {
    /// The refusal of a run after so many ticks.
    pub fn after(self, ticks: usize) -> Refusal {
        match self {
            Stop::Full => Refusal::Full { ticks },
            Stop::NoRow => Refusal::NoRow { ticks },
        }
    }
}

impl From<Stop> for Refusal {
    fn from(stop: Stop) -> Refusal {
        stop.after(0)
    }
}

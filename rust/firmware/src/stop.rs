//! Why the program stops.

use core::fmt;

use fairleadow::{Refusal, VERSION};

use crate::port::{self, tell, WAIT};

pub enum Stop {
    /// The archive is not the one of the crate.
    Version,
    /// The image cannot be prepared.
    Image(Refusal),
    /// The table is none that a preparation writes.
    Table(Refusal),
    Refused(Refusal),
    StateChanged,
    TableChanged {
        part: usize,
    },
    Late,
    NoWord,
    /// The processor found it, or the program itself.
    Fault,
}

impl From<Refusal> for Stop {
    fn from(refusal: Refusal) -> Stop {
        Stop::Refused(refusal)
    }
}

impl Stop {
    /// The outputs are off before anything is told, which takes time; only a line of an image that is refused is told before, when they
    /// are off since the beginning.
    pub fn make(self, ticks: u32) -> ! {
        if let Stop::Image(refusal) = self {
            tell!("image refused at line {}\n", refusal.index());
        }
        port::port_set_outputs(0);
        tell!("stopped after {ticks} ticks: {}\n", Why(&self, ticks));
        port::port_stay()
    }
}

struct Why<'a>(&'a Stop, u32);

impl fmt::Display for Why<'_> {
    fn fmt(&self, f: &mut fmt::Formatter<'_>) -> fmt::Result {
        let Why(stop, ticks) = self;
        match stop {
            Stop::Version => write!(f, "compiled with a crate of version {VERSION}"),
            Stop::Image(refusal) | Stop::Refused(refusal) => {
                write!(f, "refusal {}: {}", refusal.number(), refusal.sense())
            }
            Stop::Table(refusal) => {
                write!(f, "the table is wrong at line {}: {}", refusal.index(), refusal.sense())
            }
            Stop::StateChanged => write!(f, "the state has changed since tick {ticks}"),
            Stop::TableChanged { part } => write!(f, "the table has changed in part {part}"),
            Stop::Late => write!(f, "no word came, milliseconds waited {WAIT}"),
            Stop::NoWord => write!(f, "no word at tick {}", ticks + 1),
            Stop::Fault => write!(f, "fault of the processor 0"),
        }
    }
}

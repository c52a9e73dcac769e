//! The next tick of a sort.

use office::trace::Happening;

use crate::piece::Run;

/// What can be looked for.
#[derive(Clone, Copy, Debug, PartialEq, Eq)]
pub enum Event {
    Call,
    Drop,
    Refusal,
    /// A tick at which some of these outputs are others than at the tick before.
    Outputs(u32),
}

impl Event {
    /// By the number that the page has for it; from 4 on those of single outputs.
    pub fn of(number: usize) -> Event {
        match number {
            0 => Event::Call,
            1 => Event::Drop,
            2 => Event::Refusal,
            3 => Event::Outputs(u32::MAX),
            output => Event::Outputs(1 << ((output - 4) % 32)),
        }
    }

    fn happens(self, run: &dyn Run, number: usize) -> bool {
        let Some(happening) = run.happening(number) else { return self == Event::Refusal };
        match self {
            Event::Call => matches!(happening, Happening::Call(_)),
            Event::Drop => happening == Happening::Drop,
            Event::Refusal => false,
            Event::Outputs(some) => {
                let before = number.checked_sub(1).map_or(0, |before| run.mask(before));
                (run.mask(number) ^ before) & some != 0
            }
        }
    }
}

/// The next row at a box of the drawing after a row, or else the first one there.
pub fn visit(run: &dyn Run, id: &str, from: Option<usize>) -> Option<usize> {
    let here: Vec<usize> =
        (0..run.rows()).filter(|number| run.id(*number).is_some_and(|own| own == id)).collect();
    here.iter().find(|number| from.is_none_or(|from| **number > from)).or(here.first()).copied()
}

/// The nearest row of this sort after one or before it; where none is given, from the first or the last on.
pub fn seek(run: &dyn Run, event: Event, from: Option<usize>, forward: bool) -> Option<usize> {
    let happens = |number: &usize| event.happens(run, *number);
    match forward {
        true => (from.map_or(0, |from| from + 1)..run.rows()).find(happens),
        false => (0..from.unwrap_or(run.rows()).min(run.rows())).rev().find(happens),
    }
}

//! What made a tick go where it went: the row taken, the conditions by which it was taken, and the result bit that was read.

use crate::answer::Refusal;
use crate::image::{Image, Row, FUNCTION_CALL};
use crate::machine::row_label;
use crate::state::State;
use interface::Cause;

/// The cause of a fitting state's tick, or refusal 21 or 18.
pub fn cause_of(image: &Image, state: &State, word: u16) -> Result<Cause, Refusal> {
    let from = row_label(image, state).ok_or(Refusal::Rowless)?;
    let label = image.labels[usize::from(from)];
    let bit = match label.kind {
        FUNCTION_CALL => u8::from(state.results[usize::from(label.called) - 1]),
        _ => 2,
    };
    let shut_out = |row: &Row| row.function_bit != 2 && row.function_bit != bit;
    let numbered = image.rows.iter().enumerate().filter(|(_, row)| row.from == from && !shut_out(row));
    let (matching, others): (Vec<_>, Vec<_>) = numbered.partition(|(_, row)| word & row.care == row.values);
    let most = matching.iter().map(|(_, row)| row.care.count_ones()).max();
    let mut best = matching.into_iter().filter(|(_, row)| Some(row.care.count_ones()) == most);
    let (number, row) = best.next_back().ok_or(Refusal::NoRow { ticks: 0 })?;
    let mask = others.iter().fold(row.care, |mask, (_, other)| mask | contradicting(other, word));
    Ok(Cause { row: number as u16, mask, bit })
}

/// The lowest condition that a row tests and finds otherwise than it asks, as a mask.
fn contradicting(row: &Row, word: u16) -> u16 {
    let mut conditions = (0..16).map(|condition| 1 << condition);
    conditions.find(|one| row.care & one != 0 && word & one != row.values & one).unwrap_or(0)
}

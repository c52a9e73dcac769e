//! Answers as C tells them, by a number, an index and a count, and what those who call it make of that. No number is taken for another
//! refusal, and nothing that C hands back goes unseen: what no answer tells ends the program.

use core::fmt::Debug;

use crate::{Answer, Refusal, Tick};

/// An answer by its number.
pub trait Told {
    /// The refusal's number, 0 for success.
    fn number(&self) -> u8;
}

impl<T> Told for Result<T, Refusal> {
    fn number(&self) -> u8 {
        self.as_ref().err().map_or(0, |refusal| refusal.number())
    }
}

impl Tick {
    /// What stands in the places that a call is lent for a mask and a code, and stays there where the tick is refused.
    pub const BEFORE: Tick = Tick { mask: 0xA5A5_A5A5, code: 0xA5 };
}

/// The answer that is told so.
///
/// ```
/// use interface::{told, Refusal};
///
/// assert_eq!(told(0, 0, 7), Ok(7));
/// assert_eq!(told(3, 4, 0), Err(Refusal::BadSum(4)));
/// ```
///
/// # Panics
///
/// Where no answer is: a number that no refusal has, an index with success, or an index or a count that the refusal does not have.
#[inline]
#[track_caller]
pub fn told(number: u8, index: usize, count: usize) -> Answer {
    match (number, index) {
        (0, 0) => Ok(count),
        _ => match Refusal::told(number, index, count) {
            Some(refusal) => Err(refusal),
            None => panic!("number {number}, index {index} and count {count} tell no answer"),
        },
    }
}

/// What a call hands back beside its answer, where that is success, which counts so much; a refusal leaves it so.
///
/// ```
/// use interface::{handed, Refusal};
///
/// assert_eq!(handed(Ok(1), 1, 0x12, 0), Ok(0x12));
/// assert_eq!(handed(Err(Refusal::Unfit), 1, 0, 0), Err(Refusal::Unfit));
/// ```
///
/// # Panics
///
/// Where success counts something else, or a refusal leaves something else.
#[inline]
#[track_caller]
pub fn handed<T: PartialEq + Debug>(answer: Answer, counted: usize, found: T, left: T) -> Result<T, Refusal> {
    match answer {
        Ok(count) => assert_eq!(count, counted, "success counts something else"),
        Err(refusal) => assert_eq!(found, left, "{refusal} leaves something else"),
    }
    answer.map(|_| found)
}

#[cfg(test)]
mod tests {
    use std::panic::catch_unwind;

    use super::*;

    #[test]
    fn what_no_answer_tells_is_none() {
        for (number, index, count) in
            [(0, 1, 7), (5, 1, 0), (3, 4, 1), (17, 1, 7), (16, 0, 1), (29, 0, 0), (255, 0, 0)]
        {
            assert!(catch_unwind(|| told(number, index, count)).is_err(), "{number}, {index}, {count}");
        }
    }

    #[test]
    fn what_was_left_or_counted_otherwise_is_seen() {
        for (answer, found) in [(Ok(0), 5), (Ok(2), 5), (Err(Refusal::Unfit), 5)] {
            assert!(catch_unwind(|| handed(answer, 1, found, 0)).is_err(), "{answer:?}");
        }
    }

    #[test]
    fn an_answer_has_its_refusals_number() {
        assert_eq!((Answer::Ok(5).number(), Answer::Err(Refusal::Full { ticks: 5 }).number()), (0, 17));
    }
}

//! Libraries that tell the cause of a tick in one wrong way each: the comparison must find every one.

#[macro_use]
mod common;

use common::is_found;
use reference::entry::image_from_text;
use reference::image::{Image, Row, FUNCTION_CALL, OPERATION_CALL};
use reference::machine::{row_label, tick};
use reference::{as_the_reference, Cause, Library, Reference, Refusal, State};

faults! {
    // which conditions decide
    TellsTheCareMaskAlone,
    TellsTheHighestContradiction,
    TellsEveryContradiction,
    CountsARowShutOutByTheBit,
    CountsALosingRow,
    CountsRowsOfOtherLabels,
    ForgetsTheCareMask,
    // which row
    TakesTheFirst,
    TakesTheFirstOfEquals,
    NumbersRowsOfTheLabel,
    NumbersRowsFromOne,
    NumbersFrames,
    // which bit
    TellsTheBitOfAnOperationsCall,
    TellsTheBitOfTheRow,
    TellsTheBitOfTheOwner,
    TellsNoBit,
    // what is refused
    TriesRowsBeforeTheTick,
    TriesTheTickBeforeTheState,
    RefusesAFullCallAsATickDoes,
    RefusesTheHandlersReturnForWantOfARow,
    RefusesNoCallAndNoHome,
}

/// The reference with one fault.
struct Faulty(Fault);

fn lowest(mask: u16) -> u16 {
    mask & mask.wrapping_neg()
}

fn highest(mask: u16) -> u16 {
    mask.checked_ilog2().map_or(0, |condition| 1 << condition)
}

const NO_ROW: Refusal = Refusal::NoRow { ticks: 0 };

impl Faulty {
    /// The condition that a row adds to the mask, by the conditions in which the word is against it.
    fn added(&self, row: &Row, against: u16, open: bool) -> u16 {
        match self.0 {
            TellsTheCareMaskAlone => 0,
            CountsARowShutOutByTheBit => lowest(against),
            _ if !open => 0,
            CountsALosingRow if against == 0 => lowest(row.care),
            TellsTheHighestContradiction => highest(against),
            TellsEveryContradiction => against,
            _ => lowest(against),
        }
    }

    /// The row taken of some that are numbered.
    fn taken(&self, rows: &[(usize, Row)]) -> Option<(usize, Row)> {
        let ones = |(_, row): &(usize, Row)| row.care.count_ones();
        match self.0 {
            TakesTheFirst => rows.first().copied(),
            TakesTheFirstOfEquals => rows.iter().copied().rev().max_by_key(ones),
            _ => rows.iter().copied().max_by_key(ones),
        }
    }

    fn row_number(&self, image: &Image, row: usize) -> usize {
        match self.0 {
            NumbersRowsOfTheLabel => {
                row - image.rows.iter().take_while(|other| other.from < image.rows[row].from).count()
            }
            NumbersRowsFromOne => row + 1,
            NumbersFrames => 1 + image.entries.len() + image.labels.len() + row,
            _ => row,
        }
    }

    fn told_bit(&self, image: &Image, state: &State, row: &Row) -> u8 {
        let label = image.labels[usize::from(row.from)];
        let bit = |scheme: u8| u8::from(state.results[usize::from(scheme) - 1]);
        match (self.0, label.kind) {
            (TellsNoBit, _) => 2,
            (TellsTheBitOfAnOperationsCall, OPERATION_CALL) => bit(label.called),
            (TellsTheBitOfTheRow, _) => row.function_bit,
            (TellsTheBitOfTheOwner, FUNCTION_CALL) => bit(label.owner),
            (_, FUNCTION_CALL) => bit(label.called),
            _ => 2,
        }
    }

    /// What is told of a tick that takes a row of this label.
    fn told(&self, image: &Image, state: &State, from: u8, word: u16) -> Result<Cause, Refusal> {
        let called = usize::from(image.labels[usize::from(from)].called).max(1);
        let open = |row: &Row| row.function_bit == 2 || state.results[called - 1] == (row.function_bit == 1);
        let (mut matching, mut conditions) = (Vec::new(), 0);
        for (number, row) in image.rows.iter().enumerate() {
            let against = (word & row.care) ^ row.values;
            if row.from == from {
                conditions |= self.added(row, against, open(row));
                if against == 0 && open(row) {
                    matching.push((number, *row));
                }
            } else if self.0 == CountsRowsOfOtherLabels {
                conditions |= lowest(against);
            }
        }
        let (number, row) = self.taken(&matching).ok_or(NO_ROW)?;
        let care = if self.0 == ForgetsTheCareMask { 0 } else { row.care };
        Ok(Cause {
            row: self.row_number(image, number) as u16,
            mask: care | conditions,
            bit: self.told_bit(image, state, &row),
        })
    }

    /// What is told of a tick that takes no row.
    fn told_of_none(&self, image: &Image, state: &State, word: u16) -> Result<Cause, Refusal> {
        let top = state.places[usize::from(state.depth) - 1];
        let full = image.labels[usize::from(top)].calls() && tick(image, state, word).is_err();
        let alone = top == 1;
        let told = || self.told(image, state, top, word);
        match self.0 {
            TriesRowsBeforeTheTick if told() == Err(NO_ROW) => Err(NO_ROW),
            RefusesAFullCallAsATickDoes if full => Err(Refusal::Full { ticks: 0 }),
            RefusesTheHandlersReturnForWantOfARow if alone => Err(NO_ROW),
            RefusesNoCallAndNoHome if !alone => told(),
            _ => Err(Refusal::Rowless),
        }
    }
}

impl Library for Faulty {
    as_the_reference!(
        chart_calls,
        check_image,
        list_rows,
        minimise,
        count_fillings,
        prepare,
        run_calls,
        check_table,
        sum,
        rebindings,
        spins,
        value_calls,
    );

    fn cause(&self, text: &[u8], state: &State, word: u16) -> Result<Cause, Refusal> {
        let right = Reference.cause(text, state, word);
        match right {
            Ok(_) | Err(NO_ROW | Refusal::Rowless) => {}
            Err(Refusal::Unfit)
                if self.0 == TriesTheTickBeforeTheState && state.depth == 1 && state.places[0] == 0 =>
            {
                return Err(Refusal::Rowless);
            }
            _ => return right,
        }
        let image = image_from_text(text).expect("an accepted image");
        match row_label(&image, state) {
            Some(from) => self.told(&image, state, from, word),
            None => self.told_of_none(&image, state, word),
        }
    }
}

#[test]
fn every_fault_is_found() {
    for &fault in FAULTS {
        is_found(format_args!("{fault:?}"), &Faulty(fault), 30_000);
    }
}

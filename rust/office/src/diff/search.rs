//! Where a label goes by every word, as the library's row search has it. The words are those that the rows tell apart: a condition that no
//! row of the label asks for makes no difference.

use std::collections::HashSet;
use std::iter::successors;

use fairleadow::{Library, Proved, Refusal, State};

use crate::explain;
use crate::image::{Image, FUNCTION_CALL};
use crate::kind::Kind;
use crate::problem::Problem;
use crate::trace::fresh;

/// The labels of an image, each by itself at the top of a stack or beneath a scheme that ends, so that a tick takes one of its rows.
pub struct Search {
    image: Image,
    table: Vec<u8>,
    start: State,
}

impl Search {
    pub fn of(image: &Image) -> Result<Search, Problem> {
        let image = image.in_one_scheme()?;
        Ok(Search { table: image.prepared()?, start: fresh(2)?, image })
    }

    /// A state whose next tick leaves a label by a row, with this as the result of all schemes.
    fn at(&self, label: u8, result: bool) -> State {
        let mut state = self.start;
        state.places[0] = label;
        state.results = [result; 16];
        let called = self.image.called(label);
        if called != 0 {
            state.depth = 2;
            (state.places[1], state.numbers[1], state.servers[1]) = (1, called, called);
        }
        state
    }

    /// The label that follows by a word and a result, 0 for an End, or none where no row matches.
    pub fn next(&self, label: u8, word: u16, result: bool) -> Result<Option<u8>, Problem> {
        let mut state = self.at(label, result);
        match Proved.live_tick(&self.table, &mut state, word) {
            Ok(_) => Ok(Some(state.places[0])),
            Err(Refusal::NoRow { .. }) => Ok(None),
            Err(refusal) => Err(explain::refusal(&self.image.text, Kind::Image, refusal)),
        }
    }

    /// Words that lead from a label to all that any word leads to, with either result: one for each.
    pub fn leading(&self, label: u8) -> Result<Vec<u16>, Problem> {
        let asked = self.asked(label);
        let (mut known, mut words) = (HashSet::new(), Vec::new());
        // the words over the conditions asked for, one after the other
        let following = |word: &u16| Some(word.wrapping_sub(asked) & asked).filter(|next| *next != 0);
        for word in successors(Some(0), following) {
            let leads = [self.next(label, word, false)?, self.next(label, word, true)?];
            if known.insert(leads) {
                words.push(word);
            }
        }
        Ok(words)
    }

    /// The conditions that the rows of a label ask for.
    pub fn asked(&self, label: u8) -> u16 {
        self.image.rows_of(label).fold(0, |asked, row| asked | row.care)
    }

    /// Whether a label goes by a result too.
    pub fn reads_result(&self, label: u8) -> bool {
        self.image.label(label).kind == FUNCTION_CALL
    }
}

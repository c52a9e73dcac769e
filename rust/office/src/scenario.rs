//! A scenario: the words of a run step by step, with swaps between them and what is expected of the ticks, as a person writes it.
//!
//! ```text
//! # One cut, and the cutter is back before the block ends.
//! places 8
//! -    * 2; expect at last output spindle
//! wood until output cutter_in at most 20
//! swap roughing=finer
//! -    until node clear; expect at last cutter_back, not feed
//! ```
//!
//! One line is one step: a word, how often or until when it is given, and what is expected. What a word is called is as in a list of words:
//! names of conditions with + between them, a number, or - for none.

mod expected;
mod play;
mod resolve;
mod statement;
mod written;

use crate::notation::words;
use crate::other::{instead_of, Other};
use crate::problem::{Problem, LONE_RETURNS};
use crate::source::text_of;

pub use expected::{Code, Difference, Sign};
pub use play::{play, Played, Stage, Unmet};
pub use resolve::Vocabulary;
pub use written::{written, written_of_image};

/// The most ticks that are made until something is seen, where no number is given.
pub const UNTIL: usize = 1_000;

/// Steps in their order, on a stack of so many places.
#[derive(Clone, Debug, PartialEq, Eq)]
pub struct Scenario {
    pub places: Option<usize>,
    pub steps: Vec<Step>,
    /// As it was read.
    text: String,
}

/// A word, given in some ticks, with the swaps right before the first of them.
#[derive(Clone, Debug, PartialEq, Eq)]
pub struct Step {
    pub line: usize,
    pub swaps: Vec<Swapped>,
    pub word: u16,
    pub span: Span,
    pub expected: Vec<Expected>,
}

/// A number that is given to a scheme to serve, and where that stands.
#[derive(Clone, Copy, Debug, PartialEq, Eq)]
pub struct Swapped {
    pub line: usize,
    pub column: usize,
    pub number: usize,
    pub scheme: usize,
}

/// How often the word of a step is given.
#[derive(Clone, Copy, Debug, PartialEq, Eq)]
pub enum Span {
    Times(usize),
    /// Up to the tick that shows the sign, in so many ticks at most; the sign stands at the column.
    Until {
        sign: Sign,
        most: usize,
        column: usize,
    },
}

/// What each tick of a step has to show, or its last one.
#[derive(Clone, Copy, Debug, PartialEq, Eq)]
pub struct Expected {
    pub at_last: bool,
    pub sign: Sign,
}

impl Scenario {
    /// Reads the bytes of a file by the names of a chart; the mark that some editors put before it is passed over.
    pub fn read(bytes: &[u8], vocabulary: &Vocabulary) -> Result<Scenario, Problem> {
        let read = text_of(bytes).and_then(|text| {
            let text = text.strip_prefix('\u{FEFF}').unwrap_or(text);
            let scenario = resolve::resolved(&statements(text)?, text, vocabulary);
            scenario.map_err(|problem| problem.excerpt(text.as_bytes()))
        });
        // what is another kind of file is told by that, with the place where it is found
        let first = first_statement(bytes);
        let kind = || instead_of(Other::Scenario, bytes);
        read.map_err(|problem| match first.filter(|_| problem.line == first).and_then(|_| kind()) {
            Some(kind) => Problem {
                words: format!("this looks like {kind}, not like a scenario; {}", problem.words),
                advice: "another kind of file in the place of the scenario, which has a word on each line"
                    .into(),
                ..problem
            },
            None => problem,
        })
    }

    /// A problem with the line at fault.
    pub fn problem(&self, problem: Problem) -> Problem {
        problem.excerpt(self.text.as_bytes())
    }
}

/// The first line that has more than a comment.
fn first_statement(bytes: &[u8]) -> Option<usize> {
    let bytes = bytes.strip_prefix("\u{FEFF}".as_bytes()).unwrap_or(bytes);
    let is_statement = |line: &[u8]| !line.is_empty() && !line.starts_with(b"#");
    let mut lines = bytes.split(|byte| *byte == b'\n').map(<[u8]>::trim_ascii);
    lines.position(is_statement).map(|at| at + 1)
}

/// Whether a file can be read as a scenario, whatever its names stand for.
pub fn is_scenario(bytes: &[u8]) -> bool {
    let text = text_of(bytes).ok().map(|text| text.strip_prefix('\u{FEFF}').unwrap_or(text));
    let statements = text.and_then(|text| statements(text).ok());
    statements.is_some_and(|statements| !statements.is_empty())
}

/// The statements of a text, each with its line.
fn statements(text: &str) -> Result<Vec<(usize, statement::Statement)>, Problem> {
    let mut statements = Vec::new();
    for (at, line) in text.lines().enumerate() {
        let told = |problem: Problem| problem.excerpt(text.as_bytes());
        if let Some((before, _)) = line.trim_end_matches('\r').split_once('\r') {
            let column = before.chars().count() + 1;
            let what = "a carriage return within the line";
            return Err(told(Problem::at(at + 1, column, what).advice(LONE_RETURNS)));
        }
        let statement = statement::statement(&words(line), at + 1).map_err(told)?;
        statements.extend(statement.map(|statement| (at + 1, statement)));
    }
    Ok(statements)
}

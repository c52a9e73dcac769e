//! The readable notation: one line a node, with names for nodes, schemes, conditions and outputs in the same text.
//!
//! ```text
//! # The roughing calls itself once more for each cut, until condition 2 is 0.
//! condition 2 wood
//! output 0 spindle
//!
//! scheme 1 last
//!        begin -> start
//! start: do spindle; call roughing -> end
//!        end
//!
//! scheme 2 roughing
//!        begin -> more
//! more:  if wood then cut else end
//! cut:   do spindle; call roughing -> end
//!        end
//! ```
//!
//! The lines of nodes stand in the order of the chart's lines. Outputs are the micro operations of the mask. What has no
//! name is called by its number: x2 is condition 2, y0 output 0, s2 scheme 2.
//!
//! `never cutter_in with cutter_back`, `always clamp while drill` and `drill only after clamp` are interlocks, which `check` tries. They
//! are no part of the chart's lines.
//!
//! `begin when the stack is full -> back` marks a scheme as the handler. It stands on the Begin because the chart has its
//! mark there, so a line of either stays a line of the other, and what the library refuses is told by this line. It says
//! when the scheme begins, so nobody needs to know the word, and it takes no name away: these words mean nothing elsewhere.

mod layout;
mod near;
mod resolve;
mod statement;
mod words;

use fairleadow::{Library, Proved, Refusal, CHART_TEXT};

use crate::chart::{nodes, Node};
use crate::explain;
use crate::names::Names;
use crate::problem::{Problem, LONE_RETURNS};

pub use layout::said;
pub use near::nearest;
pub use resolve::{condition, output, scheme, unknown};
pub(crate) use statement::Reader;
use statement::Statement;
pub use words::{words, Word, Words, RESERVED};

/// What the Begin of the handler says.
pub const WHEN_FULL: &str = "when the stack is full";

/// The first words of statements, by which a file is known as notation.
pub const KEYWORDS: [&str; 11] =
    ["condition", "output", "scheme", "never", "always", "begin", "end", "do", "write", "call", "if"];

/// What two outputs must not do: be on in one tick, or the second without the first, or the first before the second was.
#[derive(Clone, Copy, Debug, PartialEq, Eq)]
pub enum InterlockKind {
    Never,
    Always,
    After,
}

impl InterlockKind {
    /// The words between the two outputs.
    pub fn between(self) -> &'static str {
        match self {
            InterlockKind::Never => "with",
            InterlockKind::Always => "while",
            InterlockKind::After => "only after",
        }
    }
}

/// An interlock by the numbers of its outputs, with where it stands.
#[derive(Clone, Copy, Debug, PartialEq, Eq)]
pub struct Interlock {
    pub line: usize,
    pub column: usize,
    pub kind: InterlockKind,
    pub first: u8,
    pub second: u8,
}

impl Interlock {
    /// As it is written.
    pub fn said(&self, names: &Names) -> String {
        let lead = match self.kind {
            InterlockKind::Never => "never ",
            InterlockKind::Always => "always ",
            InterlockKind::After => "",
        };
        let [first, second] = [self.first, self.second].map(|number| names.operation(number));
        format!("{lead}{first} {} {second}", self.kind.between())
    }
}

/// What stands on a line.
#[derive(Clone, Debug, PartialEq, Eq)]
enum Part {
    Nothing,
    Condition(u8),
    Output(u8),
    Scheme(u8),
    Interlock(usize),
    Node(usize),
}

#[derive(Clone, Debug, PartialEq, Eq)]
struct Line {
    part: Part,
    comment: Option<String>,
}

/// A chart as node records, with its names and with the lines that say so.
#[derive(Clone, Debug, PartialEq, Eq)]
pub struct Notation {
    pub records: Vec<u8>,
    pub names: Names,
    pub interlocks: Vec<Interlock>,
    lines: Vec<Line>,
    /// As it was read.
    text: String,
}

impl Notation {
    /// Reads a text; the mark that some editors put before it is passed over. Whether its nodes make a chart is left to
    /// the library.
    pub fn parse(text: &str) -> Result<Notation, Problem> {
        let text = text.strip_prefix('\u{FEFF}').unwrap_or(text);
        Notation::parsed(text).map_err(|problem| problem.excerpt(text.as_bytes()))
    }

    fn parsed(text: &str) -> Result<Notation, Problem> {
        let (mut lines, mut statements, mut counts) = (Vec::new(), Vec::new(), Counts::default());
        for (at, line) in text.lines().enumerate() {
            if let Some((before, _)) = line.trim_end_matches('\r').split_once('\r') {
                let column = before.chars().count() + 1;
                return Err(
                    Problem::at(at + 1, column, "a carriage return within the line").advice(LONE_RETURNS)
                );
            }
            let words = words::words(line);
            let statement = statement::statement(&words, at + 1)?;
            lines.push(Line { part: part(statement.as_ref(), &mut counts), comment: words.comment });
            statements.extend(statement.map(|statement| (at + 1, statement)));
        }
        let (records, names, interlocks) = resolve::resolved(&statements)?;
        Ok(Notation { records, names, interlocks, lines, text: text.to_string() })
    }

    /// The notation of records that the library's reader handed out, with no names.
    pub fn of_records(records: &[u8]) -> Notation {
        let mut lines = Vec::new();
        let mut names = Names::default();
        let mut current = None;
        let line = |part: Part| Line { part, comment: None };
        for (index, node) in nodes(records).iter().enumerate() {
            if current != Some(node.scheme()) {
                lines.extend(current.map(|_| line(Part::Nothing)));
                lines.push(line(Part::Scheme(node.scheme())));
                current = Some(node.scheme());
            }
            match node {
                Node::Begin { .. } => drop(names.nodes.insert(index, "begin".to_string())),
                Node::End { .. } => drop(names.nodes.insert(index, "end".to_string())),
                _ => {}
            }
            lines.push(line(Part::Node(index)));
        }
        let (records, interlocks) = (records.to_vec(), Vec::new());
        let mut notation = Notation { records, names, interlocks, lines, text: String::new() };
        notation.text = notation.layout();
        notation
    }

    /// The text as it was read.
    pub fn text(&self) -> &str {
        &self.text
    }

    /// The text, laid out anew: names in place of numbers where there are names, comments kept.
    pub fn layout(&self) -> String {
        layout::layout(self)
    }

    /// The line of each node, counted from 1.
    pub fn node_lines(&self) -> Vec<usize> {
        let node = |(at, line): (usize, &Line)| matches!(line.part, Part::Node(_)).then_some(at + 1);
        self.lines.iter().enumerate().filter_map(node).collect()
    }

    /// The line of each condition that is named.
    pub fn condition_lines(&self) -> impl Iterator<Item = (u8, usize)> + '_ {
        self.lines.iter().enumerate().filter_map(|(at, line)| match line.part {
            Part::Condition(number) => Some((number, at + 1)),
            _ => None,
        })
    }

    /// The line of each output that is named.
    pub fn output_lines(&self) -> impl Iterator<Item = (u8, usize)> + '_ {
        self.lines.iter().enumerate().filter_map(|(at, line)| match line.part {
            Part::Output(number) => Some((number, at + 1)),
            _ => None,
        })
    }

    /// The chart's lines, by the library's writer.
    pub fn chart_lines(&self) -> Result<Vec<u8>, Problem> {
        let mut text = vec![0; CHART_TEXT];
        match Proved.write_chart(&self.records, &mut text) {
            Ok(length) => {
                text.truncate(length);
                Ok(text)
            }
            Err(refusal) => Err(self.problem(refusal)),
        }
    }

    /// A refusal of the library, told by the lines and names of this notation; a mark or a call has a column too.
    pub fn problem(&self, refusal: Refusal) -> Problem {
        let told = explain::composed(&self.records, &self.names, &self.node_lines(), refusal);
        let line = told.line.and_then(|line| self.text.lines().nth(line - 1));
        let column = line.and_then(|line| match refusal {
            Refusal::BadMarks => mark_column(line),
            Refusal::CallsItself => call_column(line),
            _ => None,
        });
        Problem { column, ..told }.excerpt(self.text.as_bytes())
    }
}

/// Where a begin line marks the handler: at the word after its `begin`.
fn mark_column(line: &str) -> Option<usize> {
    let words = words::words(line).words;
    words.windows(2).find(|pair| pair[0].text == "begin").map(|pair| pair[1].column)
}

/// Where a line calls a scheme.
fn call_column(line: &str) -> Option<usize> {
    words::words(line).words.iter().find(|word| word.text == "call").map(|word| word.column)
}

/// How many interlocks and nodes stand above a line.
#[derive(Default)]
struct Counts {
    interlocks: usize,
    nodes: usize,
}

/// What a statement is on its line; interlocks and nodes are counted on.
fn part(statement: Option<&Statement>, counts: &mut Counts) -> Part {
    match statement {
        None => Part::Nothing,
        Some(Statement::Condition { number, .. }) => Part::Condition(*number),
        Some(Statement::Output { number, .. }) => Part::Output(*number),
        Some(Statement::Scheme { number, .. }) => Part::Scheme(*number),
        Some(Statement::Interlock { .. }) => {
            counts.interlocks += 1;
            Part::Interlock(counts.interlocks - 1)
        }
        Some(Statement::Node { .. }) => {
            counts.nodes += 1;
            Part::Node(counts.nodes - 1)
        }
    }
}

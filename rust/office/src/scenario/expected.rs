//! What a tick shows, held against what a scenario expects of it.

use std::fmt;

use fairleadow::{Library, Meaning, Proved};

use crate::names::Names;
use crate::plan::Plan;
use crate::problem::visible;
use crate::trace::Happening;
use crate::wording::listed;

/// What a tick can show.
#[derive(Clone, Copy, Debug, PartialEq, Eq)]
pub enum Sign {
    /// An output, on or off.
    Output(u8, bool),
    /// These outputs on, and all others off.
    Only(u32),
    Node(usize),
    Code(Code),
    /// That it is not made, by the number of the refusal.
    Refusal(u8),
}

/// A code by its number, or by what it stands for.
#[derive(Clone, Copy, Debug, PartialEq, Eq)]
pub enum Code {
    Number(u8),
    Meaning(Happening),
}

/// What a tick showed.
#[derive(Clone, Copy, Debug, PartialEq, Eq)]
pub struct Made {
    /// Its node, where there is a chart.
    pub node: Option<usize>,
    pub mask: u32,
    pub code: u8,
}

/// A tick that was made, or the number of the refusal and the node that met it.
#[derive(Clone, Copy, Debug, PartialEq, Eq)]
pub enum Seen {
    Made(Made),
    Refused { number: u8, node: Option<usize> },
}

impl Seen {
    pub fn node(&self) -> Option<usize> {
        match self {
            Seen::Made(made) => made.node,
            Seen::Refused { node, .. } => *node,
        }
    }
}

impl Sign {
    /// Whether a tick shows it.
    pub fn is_shown(&self, seen: &Seen) -> bool {
        match (self, seen) {
            (Sign::Refusal(number), Seen::Refused { number: seen, .. }) => number == seen,
            (Sign::Refusal(_), _) | (_, Seen::Refused { .. }) => false,
            (Sign::Output(output, on), Seen::Made(made)) => (made.mask >> output & 1 == 1) == *on,
            (Sign::Only(mask), Seen::Made(made)) => *mask == made.mask,
            (Sign::Node(node), Seen::Made(made)) => made.node == Some(*node),
            (Sign::Code(Code::Number(code)), Seen::Made(made)) => *code == made.code,
            (Sign::Code(Code::Meaning(meaning)), Seen::Made(made)) => *meaning == Happening::of(made.code),
        }
    }

    /// The sign in words.
    pub fn told(&self, names: &Names, plan: Option<&Plan>) -> String {
        match self {
            Sign::Output(output, true) => format!("{} on", names.operation(*output)),
            Sign::Output(output, false) => format!("{} off", names.operation(*output)),
            Sign::Only(0) => "nothing".to_string(),
            Sign::Only(mask) => format!("only {}", outputs(*mask, names).join(", ")),
            Sign::Node(node) => format!("node {}", place(*node, plan)),
            Sign::Code(Code::Number(code)) => format!("code {code:02X}"),
            Sign::Code(Code::Meaning(meaning)) => format!("code {}", happening(*meaning, names)),
            Sign::Refusal(number) => format!("refusal {number}"),
        }
    }

    /// What was seen in the place of the sign.
    pub fn instead(&self, seen: &Seen, names: &Names, plan: Option<&Plan>) -> String {
        let made = match seen {
            Seen::Made(made) => made,
            Seen::Refused { number, .. } => return refused(*number),
        };
        match self {
            Sign::Output(_, true) => "it is off".to_string(),
            Sign::Output(_, false) => "it is on".to_string(),
            Sign::Only(_) if made.mask == 0 => "nothing is on".to_string(),
            Sign::Only(_) => format!("on: {}", listed(&outputs(made.mask, names))),
            Sign::Node(_) => {
                made.node.map_or("another".to_string(), |node| format!("it is {}", place(node, plan)))
            }
            Sign::Code(_) => {
                format!("it is {:02X}, {}", made.code, happening(Happening::of(made.code), names))
            }
            Sign::Refusal(_) => "the tick was made".to_string(),
        }
    }
}

/// Why a tick was not made.
pub fn refused(number: u8) -> String {
    let why = match number {
        17 => "a call finds the stack full",
        18 => "no row matches the word",
        _ => "the library refuses it",
    };
    format!("refusal {number}: {why}")
}

/// The names of the outputs of a mask.
fn outputs(mask: u32, names: &Names) -> Vec<String> {
    (0..32).filter(|bit| mask >> bit & 1 == 1).map(|bit| names.operation(bit)).collect()
}

/// A node, with its scheme where a chart is at hand.
pub fn place(node: usize, plan: Option<&Plan>) -> String {
    plan.map_or_else(
        || format!("n{node}"),
        |plan| format!("{} of {}", plan.names.node(node), plan.scheme_of(node)),
    )
}

/// What a code stands for, as a scenario has it.
fn happening(happening: Happening, names: &Names) -> String {
    match happening {
        Happening::Plain => "plain".to_string(),
        Happening::Return => "return".to_string(),
        Happening::Home => "home".to_string(),
        Happening::Drop => "drop".to_string(),
        Happening::Call(number) => format!("call {}", names.scheme(number)),
    }
}

/// A code of two digits that some tick has.
pub fn code(text: &str) -> Result<u8, String> {
    let digits = text.len() == 2 && text.bytes().all(|digit| digit.is_ascii_hexdigit());
    let code = digits.then(|| u8::from_str_radix(text, 16).ok()).flatten();
    match code {
        Some(code) if Proved.meaning(code) != Meaning::Unknown => Ok(code),
        Some(_) => Err(format!("no tick has the code {text}")),
        None => Err(format!(
            "'{}', where the two digits of a code, or one of: home, plain, return, drop, call belongs",
            visible(text)
        )),
    }
}

/// A tick, or some in a row, that did not show what was expected.
#[derive(Clone, Debug, PartialEq, Eq)]
pub struct Difference {
    pub line: usize,
    pub first: usize,
    pub last: usize,
    /// The node of these ticks.
    pub place: String,
    /// What was expected, and what was there.
    pub words: String,
    /// Whether the tick was refused, which ends a run in any case.
    pub is_refusal: bool,
}

impl fmt::Display for Difference {
    fn fmt(&self, f: &mut fmt::Formatter<'_>) -> fmt::Result {
        let Difference { line, first, last, place, words, .. } = self;
        match last - first {
            0 => write!(f, "line {line}, tick {first}{place}: {words}"),
            _ => write!(f, "line {line}, ticks {first} to {last}{place}: {words}"),
        }
    }
}

/// Adds a difference; one that goes on from the tick before is made longer.
pub fn add(differences: &mut Vec<Difference>, new: Difference) {
    let goes_on = |old: &&mut Difference| {
        old.last + 1 == new.first && (old.line, &old.place, &old.words) == (new.line, &new.place, &new.words)
    };
    match differences.iter_mut().rev().take(16).find(goes_on) {
        Some(old) => old.last = new.last,
        None => differences.push(new),
    }
}

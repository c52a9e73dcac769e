//! The cause of a tick in words.

use fairleadow::{Cause, Refusal};

use super::Asked;
use crate::explain;
use crate::image::{Open, Row};
use crate::kind::Kind;
use crate::problem::{counted, Problem};
use crate::subject::Subject;
use crate::trace::Happening;
use crate::wording::word;

/// Where the tick went and what made it go there, or why it took no row.
pub fn told(subject: &Subject, asked: &Asked) -> Result<String, Problem> {
    let tick = format!("tick {}, word {}", asked.number, word(asked.word));
    let refusal = match asked.cause {
        Ok(cause) => return taken(subject, asked, &cause).map(|taken| format!("{tick}, {taken}")),
        Err(refusal) => refusal,
    };
    let words = match refusal {
        Refusal::NoRow { .. } => without_match(subject, asked),
        _ => without_row(subject, asked),
    };
    let refused = explain::refusal(&subject.image.text, Kind::Image, refusal);
    Err(Problem { words: format!("{tick}: {words}"), ..refused })
}

/// The label at the top before the tick, and the one beneath it.
fn before(subject: &Subject, asked: &Asked) -> (Open, Option<Open>) {
    let mut open = subject.image.open(&asked.before);
    let top = open.pop().expect("a fitting state has an open label");
    (top, open.pop())
}

/// The label at the top after the tick.
fn after(subject: &Subject, asked: &Asked) -> Open {
    subject.image.open(&asked.after).pop().expect("a fitting state has an open label")
}

/// What happens, the way, the row, and what decided.
fn taken(subject: &Subject, asked: &Asked, cause: &Cause) -> Result<String, Problem> {
    let row = subject.image.row(cause.row);
    let to = after(subject, asked);
    if row.next != to.label {
        let (next, stands) = (row.next, to.label);
        let what = format!("the row told leads to label {next}, and the library's state stands at {stands}");
        return Err(Problem::internal(what));
    }
    let mut lines = match before(subject, asked) {
        (top, Some(beneath)) if top.label == 1 => {
            let (top, beneath, to) = (subject.place(top), subject.place(beneath), subject.place(to));
            vec!["return".to_string(), format!("it returned from {top} to {beneath} and went on to {to}")]
        }
        (top, _) => {
            let (top, to) = (subject.place(top), subject.place(to));
            vec!["plain".to_string(), format!("it left {top} and went to {to}")]
        }
    };
    lines.push(format!("by row {} of the image's rows, counted from 0", cause.row));
    lines.extend(reasons(subject, asked, cause, &row));
    Ok(lines.join("\n"))
}

/// What the row asks for, and apart from it what ruled out other rows of its label.
fn reasons(subject: &Subject, asked: &Asked, cause: &Cause, row: &Row) -> Vec<String> {
    let mut own = conditions(subject, asked, row.care);
    let mut others = conditions(subject, asked, cause.mask & !row.care);
    let mut idle = None;
    if let Some((result, sort)) = result(subject, cause, row) {
        match sort {
            Sort::Own => own.push(result),
            Sort::Other => others.push(result),
            Sort::Idle => idle = Some(format!("{result}, which did not matter")),
        }
    }
    let first = match (own.is_empty(), others.is_empty()) {
        (true, true) => "nothing decided: from here every word takes this row",
        (true, false) => "the row asks for nothing",
        (false, _) => "what decided:",
    };
    let second = (!others.is_empty()).then(|| "what ruled out other rows:".to_string());
    let indented = |line: String| format!("  {line}");
    let first = std::iter::once(first.to_string()).chain(own.into_iter().map(indented));
    first.chain(second).chain(others.into_iter().map(indented)).chain(idle).collect()
}

/// The conditions of a mask with their values in the tick's word.
fn conditions(subject: &Subject, asked: &Asked, mask: u16) -> Vec<String> {
    let numbers = (0..16).filter(|number| mask >> number & 1 == 1);
    numbers.map(|number| subject.condition(number, asked.word)).collect()
}

/// Whether the row taken asks for the result, or another row of the label was shut out by it, or neither.
pub enum Sort {
    Own,
    Other,
    Idle,
}

/// The result that was read, where the label is a function's.
fn result(subject: &Subject, cause: &Cause, row: &Row) -> Option<(String, Sort)> {
    let sort = sort(subject, cause, row)?;
    Some((subject.result(subject.image.called(row.from), cause.bit), sort))
}

/// What part the result had that was read, where the label is a function's.
pub fn sort(subject: &Subject, cause: &Cause, row: &Row) -> Option<Sort> {
    let bit = cause.bit;
    if bit == 2 {
        return None;
    }
    let shuts_out = |other: Row| other.result != 2 && other.result != bit;
    Some(match row.result {
        2 if subject.image.rows_of(row.from).any(shuts_out) => Sort::Other,
        2 => Sort::Idle,
        _ => Sort::Own,
    })
}

/// Refusal 18: the label whose rows the tick looked at.
fn without_match(subject: &Subject, asked: &Asked) -> String {
    let at = match before(subject, asked) {
        (top, Some(beneath)) if top.label == 1 => beneath,
        (top, _) => top,
    };
    format!("no row of {} matches", subject.place(at))
}

/// Refusal 21: which tick it is that takes no row, and where it went.
fn without_row(subject: &Subject, asked: &Asked) -> String {
    let (top, _) = before(subject, asked);
    let (from, to) = (subject.place(top), subject.place(after(subject, asked)));
    let called = subject.scheme(subject.image.called(top.label));
    let ticked = match asked.ticked {
        Ok(ticked) => ticked,
        Err(refusal) => {
            let full = format!("finds the stack full and goes nowhere (refusal {})", refusal.number());
            return format!("a call takes no row; {from} calls {called}, {full}");
        }
    };
    match Happening::of(ticked.code) {
        Happening::Home => format!("a home tick takes no row; it left {from} and went to {to}"),
        Happening::Call(number) => {
            let server = after(subject, asked).scheme;
            let served = match server == number {
                true => String::new(),
                false => format!(", served by {}", subject.scheme(server)),
            };
            format!("a call takes no row; {from} called {called}{served}, which starts at {to}")
        }
        Happening::Drop => {
            let dropped = counted(usize::from(asked.before.depth), "open scheme");
            let full = format!("{from} called {called} and found the stack full");
            format!("a drop of {dropped} takes no row; {full}, and the handler starts at {to}")
        }
        Happening::Plain | Happening::Return => {
            let handler = "the return of a handler with nothing beneath it";
            format!("{handler} takes no row; it left {from} and went to {to}")
        }
    }
}

//! What made a tick go where it went, as a record and as a table.

use fairleadow::Cause;

use super::findings::message;
use super::json::Json;
use super::{csv as table, document};
use crate::image::Open;
use crate::problem::Problem;
use crate::subject::Subject;
use crate::why::{sort, Asked, Sort};

/// A tick that was asked about, and what is told of it in words, or why it took no row.
pub struct Reason<'a> {
    pub title: String,
    pub subject: &'a Subject,
    pub asked: Asked,
    pub told: Result<String, Problem>,
}

fn place(subject: &Subject, open: Option<Open>) -> Json {
    let of_open = |open: Open| {
        Json::Record(vec![
            ("label", open.label.into()),
            ("name", subject.name(open.label).into()),
            ("scheme", subject.names().scheme(open.scheme).into()),
        ])
    };
    open.map(of_open).into()
}

/// The conditions of a mask with their values in the tick's word.
fn conditions(subject: &Subject, word: u16, mask: u16) -> Json {
    let condition = |number: u8| {
        let name = subject.names().condition(number);
        Json::Record(vec![("condition", name.into()), ("value", (word >> number & 1).into())])
    };
    Json::List((0..16).filter(|number| mask >> number & 1 == 1).map(condition).collect())
}

/// What the result that a row's label reads had to do with its being taken.
fn part(sort: &Sort) -> &'static str {
    match sort {
        Sort::Own => "asked for",
        Sort::Other => "ruled out others",
        Sort::Idle => "did not matter",
    }
}

/// The row, the conditions that it asks for, those that ruled out others, and the result that was read.
fn row(subject: &Subject, asked: &Asked, cause: &Cause) -> Json {
    let row = subject.image.row(cause.row);
    let result = sort(subject, cause, &row).map(|sort| {
        let scheme = subject.names().scheme(subject.image.called(row.from));
        Json::Record(vec![
            ("scheme", scheme.into()),
            ("value", cause.bit.into()),
            ("part", part(&sort).into()),
        ])
    });
    Json::Record(vec![
        ("number", cause.row.into()),
        ("asked_for", conditions(subject, asked.word, row.care)),
        ("ruled_out_others", conditions(subject, asked.word, cause.mask & !row.care)),
        ("result", result.into()),
    ])
}

/// What made the tick go where it went, where that is told.
fn cause(reason: &Reason) -> Option<Cause> {
    reason.told.as_ref().ok().and(reason.asked.cause.ok())
}

pub fn json(reason: &Reason) -> String {
    let Reason { title, subject, asked, told } = reason;
    let (before, after) = (subject.image.open(&asked.before), subject.image.open(&asked.after));
    let beneath = before.len().checked_sub(2).map(|at| before[at]);
    let fields = vec![
        ("file", title.as_str().into()),
        ("tick", asked.number.into()),
        ("word", asked.word.into()),
        ("left", place(subject, before.last().copied())),
        ("beneath", place(subject, beneath)),
        ("reached", place(subject, after.last().copied())),
        ("row", cause(reason).map(|cause| row(subject, asked, &cause)).into()),
        ("told", told.as_ref().ok().map(String::as_str).into()),
        ("problem", told.as_ref().err().map(super::problem).into()),
    ];
    document("why", fields)
}

/// A row for each condition and result that was told, with the tick in each; where nothing is to tell, the tick alone.
pub fn csv(reason: &Reason) -> String {
    let Reason { subject, asked, told, .. } = reason;
    let (before, after) = (subject.image.open(&asked.before), subject.image.open(&asked.after));
    let title =
        |open: Option<&Open>| open.map_or(String::new(), |open| subject.title(open.label, open.scheme));
    let beneath = before.len().checked_sub(2).and_then(|at| before.get(at));
    let tick = [
        asked.number.to_string(),
        asked.word.to_string(),
        title(before.last()),
        title(beneath),
        title(after.last()),
    ];
    let cause = cause(reason);
    let number = cause.map(|cause| cause.row);
    let refused = told.as_ref().err().map(message).unwrap_or_default();
    let parts = cause.map_or(Vec::new(), |cause| parts(subject, asked, &cause));
    let parts = if parts.is_empty() { vec![Default::default()] } else { parts };
    let rows = parts.into_iter().map(|[part, name, value]| {
        let [tick, word, left, beneath, reached] = tick.clone();
        [tick, word, left, beneath, reached, table::number(number), part, name, value, refused.clone()]
    });
    let heading = ["tick", "word", "left", "beneath", "reached", "row", "part", "name", "value", "refused"];
    table::table(heading, rows)
}

/// What a row asks for, what ruled out others, and the result that was read, each with its name and value.
fn parts(subject: &Subject, asked: &Asked, cause: &Cause) -> Vec<[String; 3]> {
    let row = subject.image.row(cause.row);
    let conditions = |what: &'static str, mask: u16| {
        let numbers = (0..16).filter(move |number| mask >> number & 1 == 1);
        numbers.map(move |number| {
            let value = asked.word >> number & 1;
            [what.to_string(), subject.names().condition(number), value.to_string()]
        })
    };
    let result = sort(subject, cause, &row).map(|sort| {
        let scheme = subject.names().scheme(subject.image.called(row.from));
        [part(&sort).to_string(), format!("result of {scheme}"), cause.bit.to_string()]
    });
    let ruled_out = cause.mask & !row.care;
    conditions("asked for", row.care).chain(conditions("ruled out others", ruled_out)).chain(result).collect()
}

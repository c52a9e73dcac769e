//! What the commands tell other programs: the ticks of a run as waves (VCD), tables (CSV), records (JSON), and what is found in a file by
//! its place, for editors and for programs that collect findings (SARIF).

pub mod counts;
pub mod coverage;
pub mod csv;
pub mod findings;
pub mod json;
pub mod needs;
pub mod reason;
pub mod record;
pub mod sarif;
pub mod ticks;
pub mod vcd;

use std::ffi::OsStr;

use crate::command::Failure;
use crate::explain::rules;
use crate::problem::{shown_name, Problem};
use crate::scenario::Difference;

use json::Json;

/// The form that `--format` names, of those that a command knows.
pub fn named<T: Copy>(value: Option<&OsStr>, known: &[(&str, T)]) -> Result<Option<T>, Failure> {
    let Some(value) = value else { return Ok(None) };
    let names: Vec<&str> = known.iter().map(|(name, _)| *name).collect();
    let told = || {
        let known = match &names[..] {
            [first @ .., last] if !first.is_empty() => format!("{} or {last}", first.join(", ")),
            _ => names.concat(),
        };
        Failure::Usage(format!("--format takes {known}, not {}", shown_name(value)))
    };
    known.iter().find(|(name, _)| value == *name).map(|(_, form)| Some(*form)).ok_or_else(told)
}

/// A problem with its place, the refusal's number and rule, and what to look for.
pub fn problem(problem: &Problem) -> Json {
    let refusal = problem.refusal.map(|refusal| {
        Json::Record(vec![
            ("number", refusal.number().into()),
            ("index", refusal.index().into()),
            ("count", refusal.ticks().into()),
            ("rule", rules::rule(refusal).into()),
        ])
    });
    Json::Record(vec![
        ("line", problem.line.into()),
        ("column", problem.column.into()),
        ("message", problem.words.as_str().into()),
        ("refusal", refusal.into()),
        ("advice", problem.advice.to_string().into()),
    ])
}

/// What a scenario expected otherwise.
pub fn differences(differences: &[Difference]) -> Json {
    let difference = |difference: &Difference| {
        Json::Record(vec![
            ("line", difference.line.into()),
            ("first_tick", difference.first.into()),
            ("last_tick", difference.last.into()),
            ("message", difference.words.as_str().into()),
        ])
    };
    Json::List(differences.iter().map(difference).collect())
}

/// A document: what it is told by first, then its fields.
pub fn document(schema: &'static str, fields: Vec<(&'static str, Json)>) -> String {
    let schema = ("schema", Json::Text(format!("fairleadow-{schema}-1")));
    format!("{}\n", Json::Record([schema].into_iter().chain(fields).collect()))
}

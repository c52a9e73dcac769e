//! What `check` finds in files: as lines for editors, as records and as a table. Refusals, faults and interlocks that do not hold are
//! errors; what was likely not meant is a warning.

use std::ffi::OsString;

use super::csv;
use super::document;
use super::json::Json;
use crate::check::Examined;
use crate::command::file_name;
use crate::problem::Problem;

/// A file by the name that it was given, and what was found in it.
pub struct Checked {
    pub path: OsString,
    pub found: Result<Examined, Problem>,
}

/// How much a finding weighs, and of which sort it is where the library refuses nothing.
#[derive(Clone, Copy, Debug, PartialEq, Eq)]
pub enum Sort {
    Refused,
    Interlock,
    Warning,
}

impl Sort {
    pub fn level(self) -> &'static str {
        match self {
            Sort::Refused | Sort::Interlock => "error",
            Sort::Warning => "warning",
        }
    }
}

impl Checked {
    /// Whether it is refused, or an interlock does not hold.
    pub fn is_refused(&self) -> bool {
        self.findings().iter().any(|(sort, _)| sort.level() == "error")
    }

    /// All that was found, errors first.
    pub fn findings(&self) -> Vec<(Sort, &Problem)> {
        match &self.found {
            Err(problem) => vec![(Sort::Refused, problem)],
            Ok(Examined { interlocks, warnings, .. }) => {
                let interlocks = interlocks.broken.iter().map(|problem| (Sort::Interlock, problem));
                interlocks.chain(warnings.iter().map(|problem| (Sort::Warning, problem))).collect()
            }
        }
    }
}

/// The words of a problem without the place, where it is told beside them.
pub fn message(problem: &Problem) -> String {
    let place = match (problem.line, problem.column) {
        (Some(line), Some(column)) => format!("line {line}, column {column}: "),
        _ => String::new(),
    };
    problem.words.strip_prefix(&place).unwrap_or(&problem.words).replace('\n', " ")
}

/// A line for each finding, as compilers have them: `file:line:column: error: words`. What has no place has the file alone.
pub fn lines(files: &[Checked]) -> String {
    let line = |path: &OsString, sort: Sort, problem: &Problem| {
        let place = [problem.line, problem.column].into_iter().flatten().map(|number| format!("{number}:"));
        let place: String = place.collect();
        let refusal = problem.refusal.map(|refusal| format!(" (refusal {})", refusal.number()));
        let (words, refusal) = (message(problem), refusal.unwrap_or_default());
        format!("{}:{place} {}: {words}{refusal}\n", file_name(path), sort.level())
    };
    let of_file = |file: &Checked| {
        let lines = file.findings().into_iter().map(|(sort, problem)| line(&file.path, sort, problem));
        lines.collect::<String>()
    };
    files.iter().map(of_file).collect()
}

/// The name of a file as it was given.
pub fn name(path: &OsString) -> String {
    path.to_string_lossy().into_owned()
}

pub fn json(files: &[Checked]) -> String {
    let of_file = |file: &Checked| {
        let (accepted, interlocks) = match &file.found {
            Ok(examined) => (Some(examined.accepted.as_str()), examined.interlocks.held.clone()),
            Err(_) => (None, Vec::new()),
        };
        let listed = |wanted: &str| {
            let findings = file.findings().into_iter().filter(|(sort, _)| sort.level() == wanted);
            Json::List(findings.map(|(_, problem)| super::problem(problem)).collect())
        };
        Json::Record(vec![
            ("file", name(&file.path).into()),
            ("accepted", accepted.into()),
            ("interlocks", interlocks.into()),
            ("errors", listed("error")),
            ("warnings", listed("warning")),
        ])
    };
    document("check", vec![("files", Json::List(files.iter().map(of_file).collect()))])
}

/// A row for each finding, and one for each file that is accepted.
pub fn csv(files: &[Checked]) -> String {
    let of_file = |file: &Checked| {
        let name = name(&file.path);
        let accepted = file.found.iter().map(|examined| {
            let none = String::new;
            [name.clone(), "accepted".to_string(), none(), none(), none(), examined.accepted.clone()]
        });
        let findings = file.findings().into_iter().map(|(sort, problem)| {
            let refusal = csv::number(problem.refusal.map(|refusal| refusal.number()));
            let (line, column) = (csv::number(problem.line), csv::number(problem.column));
            [name.clone(), sort.level().to_string(), line, column, refusal, message(problem)]
        });
        accepted.chain(findings).collect::<Vec<[String; 6]>>()
    };
    csv::table(["file", "level", "line", "column", "refusal", "message"], files.iter().flat_map(of_file))
}

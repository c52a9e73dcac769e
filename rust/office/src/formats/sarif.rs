//! What `check` finds in files as SARIF 2.1.0, which programs that collect findings read.

use std::collections::BTreeMap;
use std::ffi::OsStr;

use super::findings::{message, Checked, Sort};
use super::json::Json;
use crate::explain::rules;
use crate::problem::Problem;

/// Where the form is defined.
const SCHEMA: &str =
    "https://docs.oasis-open.org/sarif/sarif/v2.1.0/errata01/os/schemas/sarif-schema-2.1.0.json";

/// The name of the rule that a finding is of, and the rule.
fn rule(sort: Sort, problem: &Problem) -> (String, &'static str) {
    match (sort, problem.refusal) {
        (_, Some(refusal)) => (format!("refusal-{}", refusal.number()), rules::rule(refusal)),
        (Sort::Refused, None) => {
            ("fault".to_string(), "a file can be read, and is a chart, an image or the readable notation")
        }
        (Sort::Interlock, None) => ("interlock".to_string(), "what a chart says of its outputs holds"),
        (Sort::Warning, None) => ("warning".to_string(), "a chart says what was likely meant"),
    }
}

fn text(text: impl Into<Json>) -> Json {
    Json::Record(vec![("text", text.into())])
}

/// The name of a file as a URI, from here or from the top.
fn uri(path: &OsStr) -> String {
    let top = if path.as_encoded_bytes().starts_with(b"/") { "file://" } else { "" };
    let of_byte = |byte: &u8| match byte {
        b'a'..=b'z' | b'A'..=b'Z' | b'0'..=b'9' | b'/' | b'.' | b'-' | b'_' | b'~' => {
            char::from(*byte).to_string()
        }
        _ => format!("%{byte:02X}"),
    };
    top.to_string() + &path.as_encoded_bytes().iter().map(of_byte).collect::<String>()
}

fn result(path: &OsStr, sort: Sort, problem: &Problem) -> Json {
    let column = problem.column.map(|column| ("startColumn", Json::from(column)));
    let region = problem.line.map(|line| {
        let line = ("startLine", Json::from(line));
        ("region", Json::Record([line].into_iter().chain(column).collect()))
    });
    let artifact = ("artifactLocation", Json::Record(vec![("uri", uri(path).into())]));
    let place = Json::Record([artifact].into_iter().chain(region).collect());
    // standard input has no name that leads to it
    let locations = match path == "-" {
        true => Vec::new(),
        false => vec![Json::Record(vec![("physicalLocation", place)])],
    };
    Json::Record(vec![
        ("ruleId", rule(sort, problem).0.into()),
        ("level", sort.level().into()),
        ("message", text(message(problem))),
        ("locations", Json::List(locations)),
    ])
}

/// One run of the program, with the rules that its findings are of.
pub fn report(files: &[Checked]) -> String {
    let findings =
        || files.iter().flat_map(|file| file.findings().into_iter().map(move |found| (file, found)));
    let rules: BTreeMap<String, &str> = findings().map(|(_, (sort, problem))| rule(sort, problem)).collect();
    let rules = rules
        .into_iter()
        .map(|(id, words)| Json::Record(vec![("id", id.into()), ("shortDescription", text(words))]));
    let driver = vec![
        ("name", "fairleadow".into()),
        ("version", env!("CARGO_PKG_VERSION").into()),
        ("rules", Json::List(rules.collect())),
    ];
    let results = findings().map(|(file, (sort, problem))| result(&file.path, sort, problem));
    let run = vec![
        ("tool", Json::Record(vec![("driver", Json::Record(driver))])),
        ("columnKind", "unicodeCodePoints".into()),
        ("results", Json::List(results.collect())),
    ];
    let log = vec![
        ("$schema", SCHEMA.into()),
        ("version", "2.1.0".into()),
        ("runs", Json::List(vec![Json::Record(run)])),
    ];
    format!("{}\n", Json::Record(log))
}

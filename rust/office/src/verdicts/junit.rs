//! Verdicts in the XML that JUnit's readers take: a case for each scenario, a failure where its ticks differ, an error where it was not
//! run.

use super::{coverage, Verdict, Verdicts};
use crate::escape::escaped;
use crate::problem::counted;

pub fn report(verdicts: &Verdicts) -> String {
    let (tests, not_run) = (verdicts.verdicts.len(), verdicts.not_run());
    let counts =
        format!("tests=\"{tests}\" failures=\"{}\" errors=\"{not_run}\"", verdicts.failed() - not_run);
    let chart = seen(&verdicts.chart);
    let mut text = String::from("<?xml version=\"1.0\" encoding=\"UTF-8\"?>\n");
    text.push_str(&format!("<testsuites {counts}>\n  <testsuite name=\"{chart}\" {counts} skipped=\"0\">\n"));
    for verdict in &verdicts.verdicts {
        text.push_str(&case(verdict, &chart));
    }
    let left = coverage::never_taken(verdicts).join("\n");
    text.push_str(&format!("    <system-out>{}</system-out>\n  </testsuite>\n</testsuites>\n", seen(&left)));
    text
}

fn case(verdict: &Verdict, chart: &str) -> String {
    let head = format!("    <testcase classname=\"{chart}\" name=\"{}\"", seen(&verdict.title));
    match &verdict.result {
        Ok(held) if held.differences.is_empty() => format!("{head}/>\n"),
        Ok(held) => {
            let (count, ticks) = (counted(held.differences.len(), "difference"), counted(held.ticks, "tick"));
            let lines: Vec<String> =
                held.differences.iter().map(|difference| difference.to_string()).collect();
            let lines = seen(&lines.join("\n"));
            let failure =
                format!("<failure type=\"difference\" message=\"{count} in {ticks}\">{lines}</failure>");
            format!("{head}>\n      {failure}\n    </testcase>\n")
        }
        Err(problem) => {
            let (message, all) = (seen(&problem.words), seen(&problem.to_string()));
            let error = format!("<error type=\"not run\" message=\"{message}\">{all}</error>");
            format!("{head}>\n      {error}\n    </testcase>\n")
        }
    }
}

/// A text for XML: characters that it cannot hold are shown as others.
fn seen(text: &str) -> String {
    let held = |c: char| match c {
        '\n' => c,
        c if c.is_control() || matches!(c, '\u{FFFE}' | '\u{FFFF}') => char::REPLACEMENT_CHARACTER,
        _ => c,
    };
    escaped(&text.chars().map(held).collect::<String>())
}

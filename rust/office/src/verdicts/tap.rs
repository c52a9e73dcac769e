//! Verdicts by the Test Anything Protocol, version 13: what is told beside them stands in comments.

use super::{coverage, Verdicts};

pub fn report(verdicts: &Verdicts) -> String {
    let mut text = format!("TAP version 13\n1..{}\n", verdicts.verdicts.len());
    for (at, verdict) in verdicts.verdicts.iter().enumerate() {
        let result = if verdict.is_passed() { "ok" } else { "not ok" };
        text.push_str(&format!("{result} {} - {}\n", at + 1, described(&verdict.title)));
        text.push_str(&comment(&verdict.told()));
        for difference in verdict.result.iter().flat_map(|held| &held.differences) {
            text.push_str(&comment(&difference.to_string()));
        }
    }
    for line in coverage::never_taken(verdicts) {
        text.push_str(&comment(&line));
    }
    text
}

/// A description, in which a # would begin a directive.
fn described(title: &str) -> String {
    title.replace('\\', "\\\\").replace('#', "\\#")
}

/// Each line as a comment.
fn comment(text: &str) -> String {
    text.lines().map(|line| format!("# {line}\n")).collect()
}

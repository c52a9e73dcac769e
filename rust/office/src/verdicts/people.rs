//! Verdicts for people: a line for each scenario, its differences below it, and the sum.

use super::{coverage, Verdicts};
use crate::problem::counted;

pub fn report(verdicts: &Verdicts) -> String {
    let mut text = String::new();
    for verdict in &verdicts.verdicts {
        text.push_str(&format!("{}: {}\n", verdict.title, verdict.told()));
        for difference in verdict.result.iter().flat_map(|held| &held.differences) {
            text.push_str(&format!("  {difference}\n"));
        }
    }
    let (all, failed, not_run) = (verdicts.verdicts.len(), verdicts.failed(), verdicts.not_run());
    let counts = [(all - failed, "passed"), (failed - not_run, "failed"), (not_run, "not run")];
    let counts = counts.iter().filter(|(count, _)| *count > 0).map(|(count, what)| format!("{count} {what}"));
    let counts = counts.collect::<Vec<String>>().join(", ");
    let (scenarios, ticks) = (counted(all, "scenario"), counted(verdicts.ticks(), "tick"));
    text.push_str(&format!("\n{}: {scenarios}, {counts}; {ticks}\n", verdicts.chart));
    let mut lines = coverage::never_taken(verdicts).into_iter();
    text.extend(lines.next().map(|head| format!("{head}\n")));
    text.extend(lines.map(|line| format!("  {line}\n")));
    text
}

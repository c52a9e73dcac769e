//! `fairleadow test`: scenarios held against what they expect.

use std::ffi::OsString;
use std::io::Write;

use crate::arguments::Given;
use crate::command::{file_name, Command, Failure};
use crate::formats::named;
use crate::kind::Kind;
use crate::plan::Plan;
use crate::problem::{counted, Problem};
use crate::source;
use crate::trace::fresh;
use crate::verdicts::{Format, Verdicts, FORMATS};

use super::options::{number, title};

pub const COMMAND: Command = Command {
    name: "test",
    arguments: "CHART SCENARIO ... [--places N] [--format FORMAT]",
    help: "runs scenarios on a chart, and tells each difference from what they expect",
    details: &[
        "
A scenario has a word on each line, swaps between them, and what is expected (docs/CHARTS.md, Scenarios).
Each runs from a fresh state. A difference is told by the scenario's line and the tick, with what was expected and what
was there. Then stands what no scenario took: nodes, arcs, each result of each function, and each drop, which a call
makes that finds the stack full. Status 0 means that every scenario was as expected, 1 that one was not, was refused or
did not reach what it waits for, whatever was not taken.

  --places N       places of the stack, 1 to 32, for every scenario; if not given, those that it names, else 32
  --format FORMAT  tap (Test Anything Protocol, version 13), junit (XML), csv (how often each node, arc, result and drop
                   was taken) or json, in the place of a report for people",
    ],
    run,
};

fn run(args: &[OsString], out: &mut dyn Write) -> Result<(), Failure> {
    let given = Given::of(args, &["--places", "--format"], &[])?;
    let missing = |what: &str| Failure::Usage(format!("a {what} is missing"));
    let (chart, scenarios) = given.operands.split_first().ok_or_else(|| missing("chart"))?;
    if scenarios.is_empty() {
        return Err(missing("scenario"));
    }
    if given.operands.iter().filter(|file| *file == "-").count() > 1 {
        return Err(Failure::Usage("one file at most can be standard input".to_string()));
    }
    let format = named(given.value("--format"), &FORMATS)?.unwrap_or(Format::People);
    let places = number(&given, "--places")?;
    let failure = |problem: Problem| Failure::of(chart, problem);
    let bytes = source::read(chart).map_err(failure)?;
    if Kind::of(&bytes) == Kind::Image {
        let problem = Problem::new("this is an image; scenarios are tested on a chart");
        return Err(failure(problem.advice(
            "the chart that it was made of; `fairleadow trace --scenario` runs one on an image too",
        )));
    }
    let plan = source::from_either(&bytes).and_then(Plan::read).map_err(failure)?;
    plan.image.as_ref().map_err(|problem| failure(problem.clone()))?;
    places.map_or(Ok(()), |places| fresh(places).map(drop)).map_err(failure)?;
    let mut verdicts = Verdicts::on(&plan, title(chart));
    for scenario in scenarios {
        verdicts.try_one(file_name(scenario), source::read(scenario), places);
    }
    out.write_all(verdicts.report(format).as_bytes())?;
    match verdicts.failed() {
        0 => Ok(()),
        failed => {
            Err(Failure::of(chart, format!("{failed} of {} failed", counted(scenarios.len(), "scenario"))))
        }
    }
}

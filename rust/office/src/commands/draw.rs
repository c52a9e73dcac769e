//! `fairleadow draw`: a chart as graphviz text or as SVG.

use std::ffi::OsString;
use std::io::Write;

use super::options::{Arguments, Held, Traced, NAMES_HELP, RUNNING_HELP, SWAP_HELP, TRACING};
use super::trace::{image_summary, summary};
use crate::command::{Command, Failure};
use crate::draw::{drawing, svg};
use crate::labels::run::LabelRun;
use crate::labels::{drawing as labels, table};
use crate::plan::Plan;
use crate::subject::Subject;
use crate::trace::table::{never_taken, problem};
use crate::trace::Trace;

pub const COMMAND: Command = Command {
    name: "draw",
    arguments:
        "CHART [--svg] [--trace [--places N] [--words WORDS] [--ticks N] [--swap SWAPS] [--scenario FILE]] [--names CHART]",
    help: "draws a chart or an image as graphviz text: a cluster a scheme, calls dashed, labels shown",
    details: &[
        "
  --svg          print SVG, laid out by dot (Debian's package graphviz)
  --trace        run the chart first: what the ticks took is bold, what they never took grey",
        RUNNING_HELP,
        SWAP_HELP,
        NAMES_HELP,
    ],
    run,
};

fn run(args: &[OsString], out: &mut dyn Write) -> Result<(), Failure> {
    let arguments = Arguments::of(args, &[TRACING.as_slice(), &["--names"]].concat(), &["--svg", "--trace"])?;
    if let Some(option) = TRACING.iter().find(|option| arguments.value(option).is_some())
        && !arguments.has("--trace")
    {
        return Err(Failure::Usage(format!("{option} goes with --trace")));
    }
    let plan = match arguments.held()? {
        Held::Chart(plan) => plan,
        Held::Image(subject) => return of_image(&arguments, &subject, out),
    };
    let traced = arguments.has("--trace").then(|| arguments.trace(&plan)).transpose()?;
    let trace = traced.as_ref().map(|traced| &traced.trace);
    let caption = trace.map(|trace| caption(&arguments, &plan, trace)).unwrap_or_default();
    let text = drawing(&plan, trace.map(|trace| &trace.coverage), &caption);
    let text = if arguments.has("--svg") { svg(&plan, &text).map_err(Failure::Refused)? } else { text };
    out.write_all(text.as_bytes())?;
    traced.map_or(Ok(()), |traced| ended(&arguments, &plan, &traced))
}

/// An image by its labels and rows.
fn of_image(arguments: &Arguments, subject: &Subject, out: &mut dyn Write) -> Result<(), Failure> {
    let traced = arguments.has("--trace").then(|| arguments.label_run(subject)).transpose()?;
    let run = traced.as_ref().map(|traced| &traced.trace);
    let caption = |run: &LabelRun| {
        let taken = &table::never_taken(subject, run)[0];
        format!("{}: {}\n{taken}", arguments.title(), image_summary(arguments, subject, run.places))
    };
    let text = labels::drawing(subject, run, &run.map(caption).unwrap_or_default());
    let text =
        if arguments.has("--svg") { labels::svg(subject, &text).map_err(Failure::Refused)? } else { text };
    out.write_all(text.as_bytes())?;
    traced.map_or(Ok(()), |traced| image_ended(arguments, subject, &traced))
}

/// Tells the refusal, or the step of a scenario, that ended a run of an image.
pub fn image_ended(
    arguments: &Arguments,
    subject: &Subject,
    traced: &Traced<LabelRun>,
) -> Result<(), Failure> {
    match &traced.trace.stopped {
        Some(stopped) => Err(arguments.failure(table::problem(subject, &traced.trace, stopped))),
        None => arguments.met(traced.played.as_ref()),
    }
}

/// What was traced, and how much of it was taken.
fn caption(arguments: &Arguments, plan: &Plan, trace: &Trace) -> String {
    let taken = &never_taken(plan, trace)[0];
    format!("{}: {}\n{taken}", arguments.title(), summary(arguments, plan, trace))
}

/// Tells the refusal, or the step of a scenario, that ended a trace.
pub fn ended(arguments: &Arguments, plan: &Plan, traced: &Traced<Trace>) -> Result<(), Failure> {
    match &traced.trace.stopped {
        Some(stopped) => Err(arguments.failure(problem(plan, &traced.trace, stopped))),
        None => arguments.met(traced.played.as_ref()),
    }
}

//! `fairleadow trace`: a chart's ticks as a table.

use std::ffi::{OsStr, OsString};
use std::io::Write;

use super::options::{Arguments, Held, Traced, FORCE_HELP, NAMES_HELP, RUNNING_HELP, SWAP_HELP, TRACING};
use crate::columns::reading;
use crate::command::{Command, Failure};
use crate::formats::record::Record;
use crate::formats::{named, ticks, vcd};
use crate::labels::table;
use crate::names::Names;
use crate::output;
use crate::plan::Plan;
use crate::problem::{counted, shortened};
use crate::scenario::{written, written_of_image};
use crate::subject::Subject;
use crate::trace::table::report;
use crate::trace::Trace;

pub const COMMAND: Command = Command {
    name: "trace",
    arguments: "CHART [--places N] [--words WORDS] [--ticks N] [--swap SWAPS] [--scenario FILE] [--save FILE [--expect] [--force]] [--names CHART] [--format FORMAT]",
    help: "runs a chart or an image tick by tick, and tells what was never taken",
    details: &[
        "
Each tick has a line: the word, the node, what happens, the outputs, the open schemes and the result bits
after it. Of the conditions at 1 those are named that the chart tests. A call that finds the stack full drops all that
is open and starts the handler, if the chart marks one. Where another scheme serves a number, both are named. Of an
image labels stand in the place of nodes, and rows in that of arcs. Where a scenario is run, what its ticks showed
otherwise than expected is told below them. Status 1 means that a refusal ended it, or the limit of a scenario's step.
Lines that are wider than the window: `fairleadow trace ... | less -S`.",
        RUNNING_HELP,
        SWAP_HELP,
        "  --save FILE    writes the words and swaps that were run as a scenario, which runs them again; - for standard
                 output, and then nothing else is told
  --expect       also the node and the outputs of each tick, as what is expected of it; of an image
                 without names the outputs alone",
        FORCE_HELP,
        NAMES_HELP,
        "  --format FORMAT
                 vcd (waves), csv or json (docs/CHARTS.md, For other programs), in the place of a table for people",
    ],
    run,
};

/// The forms for other programs.
const FORMATS: [(&str, fn(&Record) -> String); 3] =
    [("vcd", vcd::text), ("csv", ticks::csv), ("json", ticks::json)];

fn run(args: &[OsString], out: &mut dyn Write) -> Result<(), Failure> {
    let options = [TRACING.as_slice(), &["--save", "--names", "--format"]].concat();
    let arguments = Arguments::of(args, &options, &["--force", "--expect"])?;
    let file = arguments.written("--save")?;
    if file.is_none() && arguments.has("--expect") {
        return Err(Failure::Usage("--expect goes with --save".to_string()));
    }
    let format = named(arguments.value("--format"), &FORMATS)?;
    if format.is_some() && file.is_some_and(|file| file == "-") {
        return Err(Failure::Usage("--format does not go with --save -: both are printed".to_string()));
    }
    let title = arguments.title();
    let failure = |problem| arguments.failure(problem);
    let (head, report, stopped, ticks, played) = match arguments.held()? {
        Held::Chart(plan) => {
            let Traced { trace, played } = arguments.trace(&plan)?;
            if let Some(file) = file {
                let comment = saved_comment(&arguments, &plan.names);
                save(file, written(&plan, &trace, &comment, arguments.has("--expect")), out)?;
            }
            let stopped = trace.stopped.as_ref().map(|stopped| stopped.refusal.number());
            let report = match format {
                None => report(&plan, &trace),
                Some(format) => {
                    format(&Record::of_chart(title, &plan, &trace, played.as_ref()).map_err(failure)?)
                }
            };
            (summary(&arguments, &plan, &trace), report, stopped, trace.ticks.len(), played)
        }
        Held::Image(subject) => {
            let Traced { trace: run, played } = arguments.label_run(&subject)?;
            if let Some(file) = file {
                let comment = saved_comment(&arguments, subject.names());
                save(file, written_of_image(&subject, &run, &comment, arguments.has("--expect")), out)?;
            }
            let stopped = run.stopped.as_ref().map(|stopped| stopped.refusal.number());
            let head = image_summary(&arguments, &subject, run.places);
            let report = match format {
                None => table::report(&subject, &run),
                Some(format) => format(&Record::of_image(title, &subject, &run, played.as_ref())),
            };
            (head, report, stopped, run.ticks.len(), played)
        }
    };
    if format.is_some() {
        out.write_all(report.as_bytes())?;
    } else if file.is_none_or(|file| file != "-") {
        writeln!(out, "{}: {head}\n", arguments.title())?;
        out.write_all((report.clone() + &reading(&report).unwrap_or_default()).as_bytes())?;
        // a refused tick is told above already
        let differences = played.iter().flat_map(|played| &played.differences);
        let differences = differences.filter(|difference| !difference.is_refusal);
        for (at, difference) in differences.enumerate() {
            let heading = if at == 0 { "\nnot as the scenario expects:\n" } else { "" };
            writeln!(out, "{heading}  {difference}")?;
        }
    }
    match stopped {
        Some(number) => {
            let ticks = counted(ticks, "tick");
            Err(arguments.failure(format!("ended by refusal {number} after {ticks}")))
        }
        None => arguments.met(played.as_ref()),
    }
}

/// What a scenario that is saved has on top.
fn saved_comment(arguments: &Arguments, names: &Names) -> String {
    format!("{}, {}", arguments.title(), arguments.fed(names))
}

/// Writes the words and swaps of a run as a scenario.
fn save(file: &OsStr, scenario: Result<String, String>, out: &mut dyn Write) -> Result<(), Failure> {
    let told = |error| Failure::of(file, format!("the scenario cannot be written: {error}"));
    let scenario = scenario.map_err(told)?;
    match file == "-" {
        true => Ok(out.write_all(scenario.as_bytes())?),
        false => output::write(file, scenario.as_bytes()).map_err(told),
    }
}

/// What is traced, and with what.
pub fn summary(arguments: &Arguments, plan: &Plan, trace: &Trace) -> String {
    let (nodes, schemes) =
        (counted(plan.nodes.len(), "node"), counted(usize::from(plan.schemes()), "scheme"));
    format!("{nodes} in {schemes}; {}", run_summary(arguments, &plan.names, trace.places))
}

/// What image is run, and with what.
pub fn image_summary(arguments: &Arguments, subject: &Subject, places: usize) -> String {
    let image = &subject.image;
    let (labels, rows) = (counted(image.labels(), "label"), counted(image.rows().count(), "row"));
    let schemes = counted(usize::from(image.schemes()), "scheme");
    format!(
        "an image of {labels} and {rows} in {schemes}; {}",
        run_summary(arguments, subject.names(), places)
    )
}

fn run_summary(arguments: &Arguments, names: &Names, places: usize) -> String {
    let swaps = arguments.text("--swap").map(|swaps| format!("; swaps {}", shortened(&swaps, "swap")));
    let stack = counted(places, "place");
    format!("stack of {stack}; {}{}", arguments.fed(names), swaps.unwrap_or_default())
}

//! `fairleadow page`: a trace as one page to step through.

use std::ffi::{OsStr, OsString};
use std::io::Write;

use super::draw::{ended, image_ended};
use super::options::{Arguments, Held, FORCE_HELP, NAMES_HELP, RUNNING_HELP, SWAP_HELP, TRACING};
use super::trace::{image_summary, summary};
use crate::command::{Command, Failure};
use crate::draw::{drawing, svg};
use crate::labels::{drawing as labels, page as label_page};
use crate::output;
use crate::page::page;

/// The most ticks that a page lists.
const MOST_TICKS: usize = 10_000;

pub const COMMAND: Command = Command {
    name: "page",
    arguments: "CHART [--places N] [--words WORDS] [--ticks N] [--swap SWAPS] [--scenario FILE] [--names CHART] -o FILE.html [--force]",
    help: "runs a chart or an image and writes a page that steps through the ticks in a browser",
    details: &[
        "
The page needs nothing but a browser: the drawing, the ticks, and a slider and arrow keys that step through them and
light up the node, the open schemes and the outputs; the outputs over time, and a search for calls, drops and outputs.
One page is one chart or image, of at most 10000 ticks;
FILE.html#tick=5 opens it at tick 5. It is also written where a full stack ends the ticks; the status is 1 then.

  -o FILE.html   where the page is written, - for standard output; the drawing is laid out by dot (Debian's package
                 graphviz)",
        FORCE_HELP,
        RUNNING_HELP,
        SWAP_HELP,
        NAMES_HELP,
    ],
    run,
};

fn run(args: &[OsString], out: &mut dyn Write) -> Result<(), Failure> {
    let arguments = Arguments::of(args, &[TRACING.as_slice(), &["--names", "-o"]].concat(), &["--force"])?;
    let missing = || Failure::Usage("-o FILE.html is missing".to_string());
    let file = arguments.written("-o")?.ok_or_else(missing)?;
    let title = arguments.title();
    match arguments.held()? {
        Held::Chart(plan) => {
            let traced = arguments.trace(&plan)?;
            let trace = &traced.trace;
            fits(trace.ticks.len())?;
            let svg = svg(&plan, &drawing(&plan, Some(&trace.coverage), "")).map_err(Failure::Refused)?;
            let page = page(&plan, trace, &title, &summary(&arguments, &plan, trace), &svg);
            write(file, &page, out)?;
            ended(&arguments, &plan, &traced)
        }
        Held::Image(subject) => {
            let traced = arguments.label_run(&subject)?;
            let run = &traced.trace;
            fits(run.ticks.len())?;
            let drawing = labels::drawing(&subject, Some(run), "");
            let svg = labels::svg(&subject, &drawing).map_err(Failure::Refused)?;
            let summary = image_summary(&arguments, &subject, run.places);
            write(file, &label_page::page(&subject, run, &title, &summary, &svg), out)?;
            image_ended(&arguments, &subject, &traced)
        }
    }
}

fn fits(ticks: usize) -> Result<(), Failure> {
    match ticks > MOST_TICKS {
        true => Err(Failure::Usage(format!("a page has at most {MOST_TICKS} ticks"))),
        false => Ok(()),
    }
}

fn write(file: &OsStr, page: &str, out: &mut dyn Write) -> Result<(), Failure> {
    if file == "-" {
        return Ok(out.write_all(page.as_bytes())?);
    }
    let told = |error| Failure::of(file, format!("the page cannot be written: {error}"));
    output::write(file, page.as_bytes()).map_err(told)
}

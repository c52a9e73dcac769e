//! `fairleadow fillings`: how often stacks of 1 to 32 places fill.

use std::ffi::OsString;
use std::io::Write;

use fairleadow::Proved;

use super::options::{Arguments, FORMAT_HELP, NAMES_HELP};
use crate::columns::reading;
use crate::command::{Command, Failure};
use crate::fillings::{Drawing, Lists};
use crate::formats::counts::{fillings_csv, fillings_json, Filled};
use crate::formats::named;

pub const COMMAND: Command = Command {
    name: "fillings",
    arguments: "CHART [--ticks N] [--conditions K] [--names CHART] [--format FORMAT]",
    help: "draws which share of all lists of words fills the stack, for stacks of 1 to 32 places",
    details: &["
All lists of N words are tried in which conditions 0 to K - 1 are 0 or 1 and the others 0, each from a fresh state. One
that a full stack ends (refusal 17) fills it. A drop to the handler is no end: where there is a handler, the lists that
drop are counted beside those, and the share is that of both. Of an image that was patched by hand some
lists may find no row (18).

  --ticks N       how many words a list has, 0 to 65536; N times K is 16 at most. If not given, as many as that allows
  --conditions K  how many conditions are 0 or 1, 0 to 16. If not given, those up to the highest that the chart tests,
                  as many as N allows", NAMES_HELP, FORMAT_HELP],
    run,
};

const FORMATS: [(&str, fn(&Filled) -> String); 2] = [("csv", fillings_csv), ("json", fillings_json)];

fn run(args: &[OsString], out: &mut dyn Write) -> Result<(), Failure> {
    let arguments = Arguments::of(args, &["--ticks", "--conditions", "--names", "--format"], &[])?;
    let format = named(arguments.value("--format"), &FORMATS)?;
    let (ticks, conditions) = (arguments.number("--ticks")?, arguments.number("--conditions")?);
    let subject = arguments.subject()?;
    let lists = Lists::of(&subject.image, ticks, conditions);
    let told = |refusal| arguments.failure(subject.problem(refusal));
    let drawing = Drawing::of(&Proved, &subject.image, lists).map_err(told)?;
    let drawing =
        drawing.with_drops(&Proved, &subject.image).map_err(|problem| arguments.failure(problem))?;
    if let Some(format) = format {
        let filled = Filled { title: arguments.title(), drawing };
        return Ok(out.write_all(format(&filled).as_bytes())?);
    }
    let names = subject.names();
    writeln!(out, "{}: {}\n", arguments.title(), drawing.title(&subject.image, names))?;
    let report = drawing.report();
    Ok(out.write_all((report.clone() + &reading(&report).unwrap_or_default()).as_bytes())?)
}

//! `fairleadow why`: what made a tick go where it went.

use std::ffi::OsString;
use std::io::Write;

use super::options::{Arguments, Run, FORMAT_HELP, NAMES_HELP, RUNNING_HELP, SWAP_HELP, TRACING};
use crate::command::{Command, Failure};
use crate::formats::named;
use crate::formats::reason::{csv, json, Reason};
use crate::scenario::Vocabulary;
use crate::why::{asked, told};

pub const COMMAND: Command = Command {
    name: "why",
    arguments: "CHART [--places N] [--words WORDS] [--ticks N] [--swap SWAPS] [--scenario FILE] [--tick N] [--names CHART] [--format FORMAT]",
    help: "runs a chart or an image, and tells what made a tick go where it went",
    details: &[
        "
It tells the row that the tick took, by its number among the image's rows, and the conditions with their values: first
those that the row asks for, then those that ruled out other rows of the label. Every word that has all of them at these
values takes the same row from there; on an image as the chart gives it the first are enough. The result of a function
is told too. An image may be patched; without --names it has no names. Home ticks, calls, drops, and the return of a
handler with nothing beneath it take no row. Status 1 means such a tick, or one that finds no row.

  --tick N       the tick, counted from 0 as trace counts them; the last if not given",
        RUNNING_HELP,
        SWAP_HELP,
        NAMES_HELP,
        FORMAT_HELP,
    ],
    run,
};

const FORMATS: [(&str, fn(&Reason) -> String); 2] = [("csv", csv), ("json", json)];

fn run(args: &[OsString], out: &mut dyn Write) -> Result<(), Failure> {
    let arguments =
        Arguments::of(args, &[TRACING.as_slice(), &["--tick", "--names", "--format"]].concat(), &[])?;
    let format = named(arguments.value("--format"), &FORMATS)?;
    let failure = |problem| arguments.failure(problem);
    let subject = arguments.subject()?;
    let vocabulary = Vocabulary { names: subject.names(), plan: subject.plan() };
    let Run { places, words, swaps, .. } = arguments.run(vocabulary, || Ok(&subject.image))?;
    let tick = arguments.number("--tick")?;
    if let Some(tick) = tick.filter(|tick| *tick >= words.len()) {
        let last = words.len() - 1;
        let (made, more) = match arguments.value("--scenario") {
            Some(_) => ("the scenario makes", ""),
            None => ("the words make", " (--ticks asks for more)"),
        };
        return Err(Failure::Usage(format!("there is no tick {tick}: {made} ticks 0 to {last}{more}")));
    }
    let asked = asked(&subject, places, &words, &swaps, tick).map_err(failure)?;
    let words = told(&subject, &asked);
    if let Some(format) = format {
        let reason = Reason { title: arguments.title(), subject: &subject, asked, told: words };
        out.write_all(format(&reason).as_bytes())?;
        return reason.told.map(drop).map_err(failure);
    }
    let words = words.map_err(failure)?;
    Ok(writeln!(out, "{}: {words}", arguments.title())?)
}

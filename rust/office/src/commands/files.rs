//! The commands that are given files alone: `check`, `places`, `compose` and `show`.

use std::ffi::OsString;
use std::io::Write;

use crate::arguments::Given;
use crate::check::examined;
use crate::command::{file_name, Command, Failure};
use crate::commands::options::{naming, Arguments, Held};
use crate::compose::{composed, shown};
use crate::formats::findings::{self, Checked};
use crate::formats::needs::{self, Need};
use crate::formats::{named, sarif};
use crate::labels::listing::listing;
use crate::places::{chain, needed};
use crate::problem::{counted, Problem};
use crate::source;

pub const CHECK: Command = Command {
    name: "check",
    arguments: "FILE ... [--names CHART] [--format FORMAT]",
    help: "tells whether a chart or an image is accepted, and why not",
    details: &["
  --names CHART    where images are given: the chart that they were made of, whose interlocks are tried on their labels
                   and rows. An image is refused where its labels are not the chart's; rows may differ",
        "  --format FORMAT  lines (FILE:LINE:COLUMN: and what is found there, for editors), sarif (SARIF 2.1.0), csv or json
                   (docs/CHARTS.md, For other programs), in the place of a report for people"],
    run: check,
};

pub const PLACES: Command = Command {
    name: "places",
    arguments: "FILE ... [--format FORMAT]",
    help: "tells how many places of the stack a chart needs, and by which calls",
    details: &["
  --format FORMAT  csv or json (docs/CHARTS.md, For other programs), in the place of a line for people"],
    run: places,
};

/// What `check` tells other programs.
const FINDINGS: [(&str, fn(&[Checked]) -> String); 4] =
    [("lines", findings::lines), ("sarif", sarif::report), ("csv", findings::csv), ("json", findings::json)];

/// What `places` tells other programs.
const NEEDS: [(&str, fn(&[Need]) -> String); 2] = [("csv", needs::csv), ("json", needs::json)];

/// The files that are given, one at least.
fn operands(given: Given) -> Result<Vec<OsString>, Failure> {
    match given.operands.is_empty() {
        true => Err(Failure::Usage("a file is missing".to_string())),
        false => Ok(given.operands),
    }
}

/// Where the output has each refusal already: how many there are.
fn refused(refused: usize, files: usize) -> Result<(), Failure> {
    match refused {
        0 => Ok(()),
        _ => Err(Failure::Refused(format!("{refused} of {} refused", counted(files, "file")))),
    }
}

/// What each file holds.
fn check(args: &[OsString], out: &mut dyn Write) -> Result<(), Failure> {
    let given = Given::of(args, &["--names", "--format"], &[])?;
    let format = named(given.value("--format"), &FINDINGS)?;
    let chart = given.value("--names");
    if chart.is_some_and(|chart| chart == "-" && given.operands.iter().any(|file| file == "-")) {
        return Err(Failure::Usage("file and names cannot both be standard input".to_string()));
    }
    let plan = chart.map(naming).transpose()?;
    let examined = |bytes: &[u8]| examined(bytes, plan.as_ref());
    let Some(format) = format else {
        return each(given, out, |bytes| examined(bytes)?.told());
    };
    let examined =
        |path: OsString| Checked { found: source::read(&path).and_then(|bytes| examined(&bytes)), path };
    let files: Vec<Checked> = operands(given)?.into_iter().map(examined).collect();
    out.write_all(format(&files).as_bytes())?;
    refused(files.iter().filter(|file| file.is_refused()).count(), files.len())
}

/// What each chart needs; those that are refused are told together at the end.
fn places(args: &[OsString], out: &mut dyn Write) -> Result<(), Failure> {
    let given = Given::of(args, &["--format"], &[])?;
    let Some(format) = named(given.value("--format"), &NEEDS)? else { return each(given, out, needed) };
    let chained = |path: OsString| (path.clone(), source::read(&path).and_then(|bytes| chain(&bytes)));
    let charts: Vec<Need> = operands(given)?.into_iter().map(chained).collect();
    out.write_all(format(&charts).as_bytes())?;
    refused(charts.iter().filter(|(_, chain)| chain.is_err()).count(), charts.len())
}

/// The chart lines of a file in the notation.
pub fn compose(args: &[OsString], out: &mut dyn Write) -> Result<(), Failure> {
    let arguments = Given::of(args, &[], &[])?;
    let path = arguments.one_file("file")?;
    let lines = source::read(path).and_then(|bytes| composed(&bytes));
    Ok(out.write_all(&lines.map_err(|problem| Failure::of(path, problem))?)?)
}

/// A chart in the notation; one that is written so already is laid out anew. An image as a list of its labels and rows.
pub fn show(args: &[OsString], out: &mut dyn Write) -> Result<(), Failure> {
    let arguments = Arguments::of_file(args, &["--names"], &[])?;
    let text = match arguments.held()? {
        Held::Image(subject) => listing(&subject),
        Held::Chart(plan) => shown(&plan.source).map_err(|problem| arguments.failure(problem))?,
    };
    Ok(out.write_all(text.as_bytes())?)
}

/// What is told of the bytes of each file; the refused ones are told together at the end.
fn each(
    given: Given,
    out: &mut dyn Write,
    told: impl Fn(&[u8]) -> Result<String, Problem>,
) -> Result<(), Failure> {
    let mut refused = Vec::new();
    for path in operands(given)? {
        match source::read(&path).and_then(|bytes| told(&bytes)) {
            Ok(words) => writeln!(out, "{}: {words}", file_name(&path))?,
            Err(problem) => refused.push(Failure::of(&path, problem)),
        }
    }
    Failure::all(refused)
}

//! `fairleadow diff`: what differs between two images, two charts, a chart and an image, or two traces.

use std::ffi::{OsStr, OsString};
use std::io::Write;

use super::options::{title, Arguments, NAMES_HELP};
use crate::command::{Command, Failure};
use crate::diff::traces::{is_trace, Kept};
use crate::diff::{charts, images, traces};
use crate::explain;
use crate::image::Image;
use crate::kind::Kind;
use crate::plan::Plan;
use crate::problem::{counted, Problem};
use crate::source;
use crate::subject::Subject;

pub const COMMAND: Command = Command {
    name: "diff",
    arguments: "FILE FILE [--names CHART]",
    help: "tells what differs between two images, charts or traces, or a chart and an image",
    details: &[
        "
Of images: what their labels hold, and by which words each label goes elsewhere, for every word; where one is a chart
it is its image, and gives the names. Of charts: their nodes, by their names, or by their numbers where one has none.
Of traces, as `trace` prints them: the first tick that differs, and why. What is told is what the second has, and not
the first. Status 0 means that nothing differs, 1 that something does, or that a file is refused.
",
        NAMES_HELP,
    ],
    run,
};

/// What a file holds.
enum Side {
    Image(Image),
    Chart(Box<Plan>),
    Trace(Kept),
}

impl Side {
    fn read(path: &OsStr) -> Result<Side, Failure> {
        let told = |problem| Failure::of(path, problem);
        let bytes = source::read(path).map_err(told)?;
        let side = match Kind::of(&bytes) {
            _ if is_trace(&bytes) => Kept::read(&bytes).map(Side::Trace),
            Kind::Image => Image::read(bytes).map(Side::Image),
            _ => source::from_either(&bytes).and_then(Plan::read).map(Box::new).map(Side::Chart),
        };
        side.map_err(told)
    }

    fn named(&self) -> &'static str {
        match self {
            Side::Image(_) => "an image",
            Side::Chart(_) => "a chart",
            Side::Trace(_) => "a trace",
        }
    }
}

fn run(args: &[OsString], out: &mut dyn Write) -> Result<(), Failure> {
    let arguments = Arguments::of_two(["FILE", "FILE"], args, &["--names"], &[])?;
    let [one, other] = [arguments.chart(), arguments.beside()];
    let names = [title(one), title(other)];
    // two files of one name in two folders are told by their whole names
    let names = if names[0] == names[1] { [one, other].map(crate::command::file_name) } else { names };
    let (left, right) = (Side::read(one)?, Side::read(other)?);
    if arguments.value("--names").is_some() && !matches!((&left, &right), (Side::Image(_), Side::Image(_))) {
        let side = if matches!(left, Side::Image(_)) { &right } else { &left };
        let words = format!("this is {}; --names goes with two images", side.named());
        return Err(Failure::of(if matches!(left, Side::Image(_)) { other } else { one }, words));
    }
    let told = |problem: Problem| Failure::of(one, problem);
    let (lines, same) = match (&left, &right) {
        (Side::Trace(left), Side::Trace(right)) => {
            let left = left.like(right).map_err(told)?;
            let right = right.like(&left).map_err(|problem| Failure::of(other, problem))?;
            (traces::differences(&left, &right, [&names[0], &names[1]]), counted(left.ticks(), "tick"))
        }
        (Side::Chart(left), Side::Chart(right)) => {
            (charts::differences(left, right), counted(left.nodes.len(), "node"))
        }
        (Side::Trace(_), side) | (side, Side::Trace(_)) => {
            let (path, here, there) = match &left {
                Side::Trace(_) => (other, side.named(), "a trace"),
                _ => (one, side.named(), "a trace"),
            };
            let problem = Problem::new(format!("this is {here}, and the other file is {there}"));
            return Err(Failure::of(
                path,
                problem.advice("two files of a kind; a chart and an image go together"),
            ));
        }
        (left, right) => {
            let before = before(arguments.names()?, left, right).map_err(told)?;
            let after = image(right).map_err(|problem| Failure::of(other, problem))?;
            let accepted = explain::accepted(None, &before.image.text);
            let same = accepted.strip_prefix("accepted: ").unwrap_or(&accepted).to_string();
            (images::differences(&before, &after).map_err(told)?, same)
        }
    };
    if lines.is_empty() {
        return Ok(writeln!(out, "the same: {same}")?);
    }
    lines.iter().try_for_each(|line| writeln!(out, "{line}"))?;
    Err(Failure::Refused(format!("{} and {} differ", names[0], names[1])))
}

/// The image of a side.
fn image(side: &Side) -> Result<Image, Problem> {
    match side {
        Side::Image(image) => Ok(image.clone()),
        Side::Chart(plan) => plan.image.clone(),
        Side::Trace(_) => Err(Problem::internal("a trace has no image")),
    }
}

/// The first of two sides as an image, with the names of the chart that is one of them or is given, where its labels are the chart's.
fn before(names: Option<Plan>, left: &Side, right: &Side) -> Result<Subject, Problem> {
    let without = |image: &Image| Subject::without_names(image.clone());
    match (left, right) {
        (Side::Chart(plan), _) => Subject::of(plan),
        (Side::Image(image), Side::Chart(plan)) => {
            Ok(Subject::with_names(image.clone(), (**plan).clone()).unwrap_or_else(|_| without(image)))
        }
        (side, _) => match names {
            Some(plan) => Subject::with_names(image(side)?, plan),
            None => Ok(without(&image(side)?)),
        },
    }
}

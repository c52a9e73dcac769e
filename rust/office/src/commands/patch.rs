//! `fairleadow patch`: rows of an image written anew.

use std::ffi::OsString;
use std::io::Write;

use super::options::{Arguments, FORCE_HELP, NAMES_HELP};
use super::translate::written;
use crate::command::{Command, Failure};
use crate::diff::images::differences;
use crate::kind::Kind;
use crate::other;
use crate::patch::{patched, Patched};
use crate::problem::{counted, listed, Problem};
use crate::source;

pub const COMMAND: Command = Command {
    name: "patch",
    arguments: "IMAGE PATCH [--names CHART] [-o FILE.image [--force]]",
    help: "writes rows of an image anew, as the lines of a patch say",
    details: &[
        "
A patch has a line for each row, and # before a comment:

  at 4 when x2 and not x6 go to 5   the row of label 4 that asks for just this leads to label 5; where there is none,
                                    it is put in behind the others of its label
  at 7 when result 1 go to end      a row that asks for the result of the function that its label calls
  at 5 go to end                    a row that asks for nothing
  remove at 4 when x2               the row that asks for just this is taken out

Of the rows that match a word a tick takes the one that asks for most conditions, and of several such the last.
The image is printed, or written to a file, and then what differs is told. It is one that the library accepts; status 1
means that a line is refused, and nothing is printed or written then.

  -o FILE.image  where the patched image is written; - for standard output",
        FORCE_HELP,
        NAMES_HELP,
    ],
    run,
};

fn run(args: &[OsString], out: &mut dyn Write) -> Result<(), Failure> {
    let arguments = Arguments::of_two(["IMAGE", "PATCH"], args, &["--names", "-o"], &["--force"])?;
    let file = arguments.written("-o")?;
    let bytes = arguments.bytes()?;
    other::refused(&bytes, "an image").map_err(|problem| arguments.failure(problem))?;
    let subject = match Kind::held(&bytes) {
        Some(kind @ (Kind::Chart | Kind::Notation)) => return Err(arguments.failure(no_image(kind))),
        Some(Kind::Image) | None => arguments.image(bytes)?,
    };
    let patch = arguments.beside();
    let told = |problem| Failure::of(patch, problem);
    let patched = source::read(patch).and_then(|bytes| patched(&subject, &bytes)).map_err(told)?;
    let changes = differences(&subject, &patched.image).map_err(|problem| arguments.failure(problem))?;
    if written(file, &patched.image.text, out)? {
        writeln!(out, "{}: {}", arguments.title(), counts(&patched))?;
        changes.iter().try_for_each(|line| writeln!(out, "  {line}"))?;
    }
    Ok(())
}

/// What is patched is an image.
fn no_image(kind: Kind) -> Problem {
    Problem::new(format!("this is {}; a patch is made to an image", kind.named()))
        .advice("the chart's image: `fairleadow translate` makes it")
}

/// How many rows were added, changed and removed, and how many there are.
fn counts(patched: &Patched) -> String {
    let parts = [(patched.added, "added"), (patched.changed, "changed"), (patched.removed, "removed")];
    let parts = parts.into_iter().filter(|(count, _)| *count > 0);
    let done: Vec<String> = parts.map(|(count, what)| format!("{} {what}", counted(count, "row"))).collect();
    let kept = match patched.kept {
        0 => String::new(),
        count => format!("; {} for a row that leads there already", counted(count, "line")),
    };
    let done = if done.is_empty() { "nothing changed".to_string() } else { listed(&done) };
    format!("{done}; {} now{kept}", counted(patched.image.rows().count(), "row"))
}

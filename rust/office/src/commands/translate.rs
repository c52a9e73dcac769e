//! `fairleadow translate`: the image of a chart.

use std::ffi::{OsStr, OsString};
use std::io::Write;

use super::options::{Arguments, FORCE_HELP};
use crate::check::translated;
use crate::command::{Command, Failure};
use crate::explain;
use crate::output;
use crate::source;

pub const COMMAND: Command = Command {
    name: "translate",
    arguments: "CHART [-o FILE.image [--force]]",
    help: "turns a chart into the image that the lathe runs",
    details: &[
        "
It prints the image's lines, or writes them to a file, which is whole or stays as it was. Status 1 means that the chart
is refused; then nothing is printed or written.

  -o FILE.image  where the image is written, and what it is is told; - for standard output",
        FORCE_HELP,
    ],
    run,
};

fn run(args: &[OsString], out: &mut dyn Write) -> Result<(), Failure> {
    let arguments = Arguments::of(args, &["-o"], &["--force"])?;
    let file = arguments.written("-o")?;
    let image = source::from_either(&arguments.bytes()?).and_then(|source| translated(&source));
    let image = image.map_err(|problem| arguments.failure(problem))?;
    if written(file, &image, out)? {
        let told = explain::accepted(None, &image);
        writeln!(out, "{}: {}", arguments.title(), told.strip_prefix("accepted: ").unwrap_or(&told))?;
    }
    Ok(())
}

/// Writes an image to its file, or prints it where there is none; whether there is one.
pub fn written(file: Option<&OsStr>, image: &[u8], out: &mut dyn Write) -> Result<bool, Failure> {
    match file {
        Some(file) if file != "-" => {
            let told = |error| Failure::of(file, format!("the image cannot be written: {error}"));
            output::write(file, image).map_err(told)?;
            Ok(true)
        }
        _ => {
            out.write_all(image)?;
            Ok(false)
        }
    }
}

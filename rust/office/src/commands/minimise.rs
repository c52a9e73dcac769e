//! `fairleadow minimise`: the image with its alike labels joined.

use std::ffi::OsString;
use std::io::Write;

use fairleadow::{Library, Proved};

use super::options::{Arguments, FORCE_HELP};
use crate::command::{Command, Failure};
use crate::explain;
use crate::explain::image::Header;
use crate::kind::Kind;
use crate::output;
use crate::problem::{counted, thousands, Problem};
use crate::subject::Subject;

pub const COMMAND: Command = Command {
    name: "minimise",
    arguments: "CHART [-o FILE.image [--force]]",
    help: "joins the labels of a chart or an image that act alike, and tells how much is saved",
    details: &[
        "
The smaller image ticks as the given one does, whatever the words, results and swaps. Status 1 means refused: of an
image that was patched by hand some word may match no row of a label, or two.

  -o FILE.image  where the smaller image is written, - for standard output, and then nothing is told",
        FORCE_HELP,
    ],
    run,
};

fn run(args: &[OsString], out: &mut dyn Write) -> Result<(), Failure> {
    let arguments = Arguments::of(args, &["-o"], &["--force"])?;
    let file = arguments.written("-o")?;
    let failure = |problem| arguments.failure(problem);
    let image = Subject::read(arguments.bytes()?).map_err(failure)?.image.text;
    let smaller = minimised(&image).map_err(failure)?;
    match file {
        Some(file) if file == "-" => return Ok(out.write_all(&smaller)?),
        Some(file) => {
            let told = |error| Failure::of(file, format!("the image cannot be written: {error}"));
            output::write(file, &smaller).map_err(told)?;
        }
        None => {}
    }
    Ok(writeln!(out, "{}: {}", arguments.title(), told(&image, &smaller))?)
}

/// The smaller image of an accepted one, or why it is refused.
pub fn minimised(image: &[u8]) -> Result<Vec<u8>, Problem> {
    // it is never longer
    let mut smaller = vec![0; image.len()];
    match Proved.minimise(image, &mut smaller) {
        Ok(length) => {
            smaller.truncate(length);
            Ok(smaller)
        }
        Err(refusal) => Err(explain::refusal(image, Kind::Image, refusal)),
    }
}

/// The labels and the rows of an accepted image.
pub fn size(image: &[u8]) -> (usize, usize) {
    let frames = explain::frames(image).expect("an accepted image has lines");
    let header = Header::of(&frames[0]);
    (header.last + 1, header.rows)
}

/// How much smaller the image became.
fn told(image: &[u8], smaller: &[u8]) -> String {
    let ((labels, rows), (fewer_labels, fewer_rows)) = (size(image), size(smaller));
    if labels == fewer_labels {
        let (labels, rows) = (counted(labels, "label"), counted(rows, "row"));
        return format!("no two labels act alike; {labels} and {rows} stay");
    }
    let saved =
        format!("{} and {}", counted(labels - fewer_labels, "label"), counted(rows - fewer_rows, "row"));
    let (kept, left) = (thousands(fewer_labels), counted(fewer_rows, "row"));
    let characters = counted(image.len() - smaller.len(), "character");
    format!("saves {saved}, {characters}; {kept} labels and {left} are left")
}

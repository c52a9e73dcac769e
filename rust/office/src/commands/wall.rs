//! `fairleadow wall`: the wall sheet of all little charts, or one of them.

use std::ffi::OsString;
use std::io::Write;

use fairleadow::{Library, Proved, LINE, LITTLE_FRAMES, LITTLE_TEXT, RECORD, RECORDS};

use crate::arguments::Given;
use crate::command::{Command, Failure};
use crate::explain;
use crate::kind::Kind;
use crate::notation::Notation;
use crate::problem::{counted, shown_name, Problem};

pub const COMMAND: Command = Command {
    name: "wall",
    arguments: "[FRAMES [NUMBER]]",
    help: "prints the wall sheet: every little chart, with its number, its lines and what they say",
    details: &["
Little charts are all charts of 2, 3 and 4 frames with one scheme that the library accepts and that have no conditions
but x0, no outputs but y0 and no results. They stand in the order of their lines, each once, and are numbered from 0.
With FRAMES the sheet has those of so many frames alone. With NUMBER too, the lines of one chart are printed and nothing
else, so that other commands can take them: `fairleadow wall 4 100 | fairleadow trace -`. Status 1 means that there is
no such chart."],
    run,
};

fn run(args: &[OsString], out: &mut dyn Write) -> Result<(), Failure> {
    let operands = Given::of(args, &[], &[])?.operands;
    match operands.iter().map(shown_name).collect::<Vec<String>>().as_slice() {
        [] => sheet(&all(2..=LITTLE_FRAMES)?, out),
        [frames] => sheet(&all(number(frames)?..=number(frames)?)?, out),
        [frames, chart] => {
            let (frames, chart) = (number(frames)?, number(chart)?);
            let told = |problem| Failure::of(format!("{frames} frames, chart {chart}"), problem);
            Ok(out.write_all(&fetched(frames, chart).map_err(told)?)?)
        }
        [_, _, more, ..] => Err(Failure::Usage(format!("{more} is one word more"))),
    }
}

fn number(word: &str) -> Result<usize, Failure> {
    word.parse().map_err(|_| Failure::Usage(format!("{word} is no number")))
}

/// The lines of a little chart.
pub fn fetched(frames: usize, chart: usize) -> Result<Vec<u8>, Problem> {
    let mut text = vec![0; LITTLE_TEXT];
    match Proved.little_chart(frames, chart, &mut text) {
        Ok(length) => {
            text.truncate(length);
            Ok(text)
        }
        Err(refusal) => Err(explain::refusal(&[], Kind::Chart, refusal)),
    }
}

/// The lines of all charts of one frame count, in their order.
struct Charts {
    frames: usize,
    lines: Vec<Vec<u8>>,
}

/// All charts of these frame counts, each of which has some.
fn all(counts: impl Iterator<Item = usize>) -> Result<Vec<Charts>, Failure> {
    let of_count = |frames: usize| {
        let first = fetched(frames, 0).map_err(|problem| Failure::of(counted(frames, "frame"), problem))?;
        let others = (1..).map_while(|chart| fetched(frames, chart).ok());
        Ok(Charts { frames, lines: [first].into_iter().chain(others).collect() })
    };
    counts.map(of_count).collect()
}

/// What is common to all, how many charts there are of each count, then a block for each.
fn sheet(all: &[Charts], out: &mut dyn Write) -> Result<(), Failure> {
    writeln!(out, "Little charts: one scheme, no condition but x0, no output but y0, no results.")?;
    for charts in all {
        writeln!(out, "{}: {}", counted(charts.frames, "frame"), counted(charts.lines.len(), "chart"))?;
    }
    for charts in all {
        for (chart, lines) in charts.lines.iter().enumerate() {
            write!(out, "\n{}, chart {chart}\n{}", counted(charts.frames, "frame"), block(lines))?;
        }
    }
    Ok(())
}

/// Each line of a chart, and beside it what it says.
fn block(lines: &[u8]) -> String {
    let mut records = [0; RECORDS];
    let count = Proved.read_chart(lines, &mut records).unwrap_or(0);
    let notation = Notation::of_records(&records[..count * RECORD]).layout();
    // above the nodes stands the scheme
    let nodes = notation.lines().skip(1);
    let pair =
        |(line, node): (&[u8], &str)| format!("  {}  {node}\n", String::from_utf8_lossy(&line[..LINE - 1]));
    lines.chunks(LINE).zip(nodes).map(pair).collect()
}

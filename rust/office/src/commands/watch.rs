//! `fairleadow watch`: a file told of anew whenever it changes.

use std::ffi::{OsStr, OsString};
use std::io::Write;
use std::thread::sleep;
use std::time::{Duration, SystemTime, UNIX_EPOCH};

use super::options::{Arguments, FORCE_HELP, NAMES_HELP, RUNNING_HELP, SWAP_HELP, TRACING};
use super::page;
use crate::check::checked;
use crate::command::{file_name, Command, Failure};
use crate::problem::Problem;
use crate::source;

pub const COMMAND: Command = Command {
    name: "watch",
    arguments: "CHART [-o FILE.html [--places N] [--words WORDS] [--ticks N] [--swap SWAPS] [--scenario FILE] [--names CHART] [--force]]",
    help: "tells what check says of a file, and writes its page, now and each time that it changes",
    details: &[
        "
What is told has the time before it, in UTC. The file is looked at twice a second, and so are those of --scenario and
--names. Where it is gone or refused that is told, and it is waited for; the page before it stays. Ctrl-C ends it.

  -o FILE.html   also write the page that `fairleadow page` writes with the same options",
        FORCE_HELP,
        RUNNING_HELP,
        SWAP_HELP,
        NAMES_HELP,
    ],
    run,
};

/// How long nothing is looked at.
const PAUSE: Duration = Duration::from_millis(500);

/// What a file holds, or why it cannot be read. Contents are compared and not times, so that no change is too quick to be noticed.
type Held = Result<Vec<u8>, Problem>;

fn run(args: &[OsString], out: &mut dyn Write) -> Result<(), Failure> {
    let arguments = Arguments::of(args, &[TRACING.as_slice(), &["--names", "-o"]].concat(), &["--force"])?;
    let page = arguments.written("-o")?;
    if let Some(option) = TRACING.iter().chain(&["--names"]).find(|option| arguments.value(option).is_some())
        && page.is_none()
    {
        return Err(Failure::Usage(format!("{option} goes with -o")));
    }
    let beside = ["--scenario", "--names"].into_iter().filter_map(|option| arguments.value(option));
    let files: Vec<&OsStr> = [arguments.chart()].into_iter().chain(beside).collect();
    if files.iter().chain(&page).any(|file| *file == "-") {
        return Err(Failure::Usage("only files can be watched and written, and - is none".to_string()));
    }
    let mut before: Option<Vec<Held>> = None;
    loop {
        let held: Vec<Held> = files.iter().map(source::read).collect();
        if before.as_ref() != Some(&held) {
            let done = told(args, page, arguments.chart(), &held[0], out)?;
            match done {
                // a wrong call is one at once, or the chart has changed under it
                Err(failure @ Failure::Usage(_)) if before.is_none() => return Err(failure),
                Err(failure) => writeln!(out, "{failure}")?,
                Ok(()) => {}
            }
            out.flush()?;
            before = Some(held);
        }
        sleep(PAUSE);
    }
}

/// Tells what check says of the file now, and that its page is written, or hands out why it is not.
fn told(
    args: &[OsString],
    page: Option<&OsStr>,
    file: &OsStr,
    held: &Held,
    out: &mut dyn Write,
) -> Result<Result<(), Failure>, Failure> {
    let accepted = held.as_ref().map_err(Problem::clone).and_then(|bytes| checked(bytes));
    let words = accepted.as_ref().map_or_else(Problem::to_string, String::clone);
    writeln!(out, "{} {}: {words}", clock(SystemTime::now()), file_name(file))?;
    let Some(page) = page.filter(|_| accepted.is_ok()) else { return Ok(Ok(())) };
    let written = (page::COMMAND.run)(args, out);
    if written.is_ok() {
        writeln!(out, "{}: written", file_name(page))?;
    }
    Ok(written)
}

/// The time of day, in UTC.
fn clock(now: SystemTime) -> String {
    let seconds = now.duration_since(UNIX_EPOCH).map_or(0, |since| since.as_secs());
    format!("{:02}:{:02}:{:02}", seconds / 3600 % 24, seconds / 60 % 60, seconds % 60)
}

#[cfg(test)]
mod tests {
    use super::*;

    #[test]
    fn the_clock_shows_the_time_of_day() {
        let at = |seconds| clock(UNIX_EPOCH + Duration::from_secs(seconds));
        assert_eq!([at(0), at(86_399), at(1_000_000_000)], ["00:00:00", "23:59:59", "01:46:40"]);
    }
}

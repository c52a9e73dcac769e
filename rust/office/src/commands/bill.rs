//! `fairleadow bill`: what a dry run costs.

use std::ffi::OsString;
use std::io::Write;

use super::options::{title, Arguments, Run, FORMAT_HELP, NAMES_HELP, RUNNING_HELP, SWAP_HELP, TRACING};
use crate::bill::{prices::prices, Bill};
use crate::columns::reading;
use crate::command::{Command, Failure};
use crate::formats::counts::{bill_csv, bill_json, Priced};
use crate::formats::named;
use crate::problem::counted;
use crate::scenario::Vocabulary;
use crate::source;

pub const COMMAND: Command = Command {
    name: "bill",
    arguments: "CHART --prices FILE [--places N] [--words WORDS] [--ticks N] [--swap SWAPS] [--scenario FILE] [--names CHART] [--format FORMAT]",
    help: "runs a chart or an image, and tells what its outputs cost",
    details: &[
        "
For each output that was on: at how many ticks, its price a tick, and what that makes. The sum is rounded once
for the whole run, halves upward, to whole cents. A run has 65536 ticks at most. Where a full stack or a missing row
ends it, the ticks before that are priced; the status is 1 then. Where schemes are swapped, each part of the run from
swap to swap has a price of its own, rounded by itself, and the sum of these is to pay.

  --prices FILE  a line for each output: its name in the chart, or y0 to y31, and its price in hundredths of a
                 cent a tick, 0 to 65535; # before a comment. What has no line costs nothing. - is standard input",
        RUNNING_HELP,
        SWAP_HELP,
        NAMES_HELP,
        FORMAT_HELP,
    ],
    run,
};

const FORMATS: [(&str, fn(&Priced) -> String); 2] = [("csv", bill_csv), ("json", bill_json)];

fn run(args: &[OsString], out: &mut dyn Write) -> Result<(), Failure> {
    let options = [TRACING.as_slice(), &["--prices", "--names", "--format"]].concat();
    let arguments = Arguments::of(args, &options, &[])?;
    let format = named(arguments.value("--format"), &FORMATS)?;
    let missing = || Failure::Usage("--prices FILE is missing".to_string());
    let file = arguments.value("--prices").ok_or_else(missing)?;
    let failure = |problem| arguments.failure(problem);
    let subject = arguments.subject()?;
    let names = subject.names();
    let listed = source::read(file).and_then(|bytes| prices(&bytes, names));
    let listed = listed.map_err(|problem| Failure::of(file, problem))?;
    let vocabulary = Vocabulary { names, plan: subject.plan() };
    let Run { places, words, swaps, played } = arguments.run(vocabulary, || Ok(&subject.image))?;
    let bill = Bill::of(&subject, places, listed, &words, &swaps).map_err(failure)?;
    let ended = |refusal: fairleadow::Refusal| {
        let ticks = counted(refusal.ticks(), "tick");
        arguments.failure(format!("ended by refusal {} after {ticks}", refusal.number()))
    };
    if let Some(format) = format {
        let priced = Priced { title: arguments.title(), subject: &subject, places, bill };
        out.write_all(format(&priced).as_bytes())?;
        return match priced.bill.answer {
            Ok(_) => arguments.met(played.as_ref()),
            Err(refusal) => Err(ended(refusal)),
        };
    }
    let (chart, stack, fed) = (arguments.title(), counted(places, "place"), arguments.fed(names));
    writeln!(out, "{chart}: stack of {stack}; {fed}; prices {}\n", title(file))?;
    let report = bill.report(names);
    out.write_all((report.clone() + &reading(&report).unwrap_or_default()).as_bytes())?;
    match bill.answer {
        Ok(_) => arguments.met(played.as_ref()),
        Err(refusal) => {
            writeln!(out, "\n{}", subject.problem(refusal))?;
            Err(ended(refusal))
        }
    }
}

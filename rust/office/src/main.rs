//! Commands of the office program.

mod closed;

use std::env;
use std::ffi::{OsStr, OsString};
use std::io::{self, Write};
use std::process::ExitCode;

use fairleadow::Proved;
use office::arguments::{unknown, Given};
use office::command::{Command, Failure, Run};
use office::commands::{
    bill, diff, draw, files, fillings, minimise, page, patch, test, trace, translate, wall, watch, why,
};
use office::printed::{Closed, Printed};
use office::{completion, manual};

const fn command(name: &'static str, arguments: &'static str, help: &'static str, run: Run) -> Command {
    Command { name, arguments, help, details: &[], run }
}

/// Every command, one line each.
#[rustfmt::skip]
const COMMANDS: &[Command] = &[
    files::CHECK,
    command("compose", "FILE", "turns the readable notation into chart lines with their sums", files::compose),
    command("show", "FILE [--names CHART]", "turns chart lines into the readable notation, and lists an image", files::show),
    translate::COMMAND,
    patch::COMMAND,
    diff::COMMAND,
    files::PLACES,
    trace::COMMAND,
    test::COMMAND,
    why::COMMAND,
    bill::COMMAND,
    fillings::COMMAND,
    minimise::COMMAND,
    draw::COMMAND,
    page::COMMAND,
    watch::COMMAND,
    wall::COMMAND,
    command("completion", "bash", "prints what has the shell complete a call: source <(fairleadow completion bash)", complete),
];

/// No line of a help text is longer.
const WIDEST: usize = 120;

/// A call with its arguments, which go on in the next line, behind a margin, where they would be too long for one.
fn broken(call: &str, margin: usize) -> String {
    let mut parts = call.split(" [");
    let mut text = parts.next().unwrap_or_default().to_string();
    let mut wide = text.len();
    for part in parts {
        let part = format!("[{part}");
        let between =
            if wide + 1 + part.len() > WIDEST { format!("\n{:margin$}", "") } else { " ".to_string() };
        wide = if between == " " { wide + 1 } else { margin } + part.len();
        text = text + &between + &part;
    }
    text
}

fn line(command: &Command) -> String {
    broken(&format!("usage: fairleadow {} {}", command.name, command.arguments), 8)
}

/// What is the same of all commands.
const COMMON: &str = "\
A FILE or CHART holds chart lines or the readable notation, and but for compose, translate, places and test it may also
be an image; - is standard input. The CHART of --names is a chart.
`fairleadow help COMMAND` tells of one command, --version of the program. An option's value may stand after a = too,
and what stands after -- is no option. Status 1 means refused, a scenario's step that
reached its limit, in `test` what is not as expected, and in `diff` a difference; 2 is a wrong call. `trace --scenario`
tells what is not as expected and ends with 0.
`fairleadow help --man` prints all of it as a man page.
";

/// The help of the whole program.
fn help() -> String {
    let mut text = String::from("usage: fairleadow COMMAND ARGUMENTS\n\n");
    for command in COMMANDS {
        let call = broken(&format!("  {} {}", command.name, command.arguments), 6);
        let gap = if call.len() > 18 { format!("\n{:19}", "") } else { " ".repeat(19 - call.len()) };
        text.push_str(&format!("{call}{gap}{}\n", command.help));
    }
    text.push('\n');
    text.push_str(COMMON);
    text
}

fn is_help(argument: &OsString) -> bool {
    argument == "--help" || argument == "-h"
}

/// The command of this name, or which was likely meant.
fn named(name: &OsStr) -> Result<&'static Command, Failure> {
    let known = || COMMANDS.iter().map(|command| command.name).chain(["help", "--version"]);
    let told =
        || Failure::Usage(format!("{}\n{}", unknown("command", &name.to_string_lossy(), known()), help()));
    COMMANDS.iter().find(|command| name == command.name).ok_or_else(told)
}

/// The help of one command.
fn help_of(command: &Command, out: &mut dyn Write) -> Result<(), Failure> {
    writeln!(out, "{}\n{}", line(command), command.help)?;
    Ok(command.details.iter().try_for_each(|part| writeln!(out, "{part}"))?)
}

/// The completion of calls for a shell.
fn complete(args: &[OsString], out: &mut dyn Write) -> Result<(), Failure> {
    match Given::of(args, &[], &[])?.one_file("shell")? {
        shell if shell == "bash" => Ok(out.write_all(completion::bash(COMMANDS).as_bytes())?),
        other => {
            Err(Failure::Usage(unknown("completion for", &other.to_string_lossy(), ["bash"].into_iter())))
        }
    }
}

/// Runs what was asked for.
fn run(arguments: &[OsString], out: &mut dyn Write) -> Result<(), Failure> {
    let Some((name, rest)) = arguments.split_first() else {
        return Err(Failure::Usage(help()));
    };
    match (name.to_str(), rest) {
        (Some("--help" | "-h" | "help"), []) => return Ok(out.write_all(help().as_bytes())?),
        (Some("--help" | "-h" | "help"), [word, ..]) if word == "help" || is_help(word) => {
            return Ok(out.write_all(help().as_bytes())?)
        }
        (Some("--help" | "-h" | "help"), [word, ..]) if word == "--man" => {
            let page = manual::page(COMMANDS, COMMON, env!("CARGO_PKG_VERSION"));
            return Ok(out.write_all(page.as_bytes())?);
        }
        (Some("--help" | "-h" | "help"), [command, ..]) => return help_of(named(command)?, out),
        (Some("--version"), _) => {
            let (program, library) = (env!("CARGO_PKG_VERSION"), Proved::version());
            return Ok(writeln!(out, "fairleadow {program}, with version {library} of the library")?);
        }
        _ => {}
    }
    let command = named(name)?;
    if rest.iter().take_while(|word| *word != "--").any(is_help) {
        return help_of(command, out);
    }
    (command.run)(rest, out).map_err(|failure| match failure {
        Failure::Usage(why) => Failure::Usage(format!("{why}\n{}", line(command))),
        failure => failure,
    })
}

/// The status of a command, which tells on standard error how it failed.
fn status(failure: &Failure) -> u8 {
    // Where standard error cannot be written either, the status is all that is left to tell.
    drop(io::stderr().write_all(format!("{}\n", failure.to_string().trim_end()).as_bytes()));
    match failure {
        Failure::Usage(_) => 2,
        Failure::Refused(_) | Failure::Output(_) => 1,
    }
}

fn main() -> ExitCode {
    let to: Box<dyn Write> =
        if closed::standard_output() { Box::new(Closed) } else { Box::new(io::stdout().lock()) };
    let mut out = Printed::to(to);
    let arguments: Vec<OsString> = env::args_os().skip(1).collect();
    let done = run(&arguments, &mut out);
    // what was refused is told whether or not anybody reads the output, and a lost output after it
    let lost = out.lost().map(Failure::Output);
    let statuses = done.err().into_iter().chain(lost).map(|failure| status(&failure));
    ExitCode::from(statuses.max().unwrap_or(0))
}

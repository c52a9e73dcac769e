//! What a command is, and how it can fail.

use std::ffi::{OsStr, OsString};
use std::fmt::{self, Display};
use std::io::{self, Write};

use crate::problem::shown_name;

/// A command of the program: its name, its arguments, one line of help, the rest of its help, and what it does.
pub struct Command {
    pub name: &'static str,
    pub arguments: &'static str,
    pub help: &'static str,
    pub details: &'static [&'static str],
    pub run: Run,
}

/// Handed the arguments after the command's name; what it has to say goes to the writer.
pub type Run = fn(&[OsString], &mut dyn Write) -> Result<(), Failure>;

/// Why a command does not end well.
#[derive(Debug)]
pub enum Failure {
    /// It was asked for in a wrong way: status 2.
    Usage(String),
    /// A chart, an image or a run was refused, or a file cannot be read: status 1.
    Refused(String),
    /// What it said could not be written.
    Output(io::Error),
}

/// How a file is called in what is told.
pub fn file_name(path: impl AsRef<OsStr>) -> String {
    match path.as_ref() {
        path if path == "-" => "standard input".to_string(),
        path => shown_name(path),
    }
}

impl Failure {
    /// A problem of a file.
    pub fn of(path: impl AsRef<OsStr>, problem: impl Display) -> Failure {
        Failure::Refused(format!("{}: {problem}", file_name(path)))
    }

    /// What several files gave: well only where none failed.
    pub fn all(failures: Vec<Failure>) -> Result<(), Failure> {
        let told: Vec<String> = failures.into_iter().map(|failure| failure.to_string()).collect();
        if told.is_empty() {
            Ok(())
        } else {
            Err(Failure::Refused(told.join("\n")))
        }
    }
}

impl fmt::Display for Failure {
    fn fmt(&self, f: &mut fmt::Formatter<'_>) -> fmt::Result {
        match self {
            Failure::Usage(words) | Failure::Refused(words) => f.write_str(words),
            Failure::Output(error) => write!(f, "the output cannot be written: {error}"),
        }
    }
}

impl From<io::Error> for Failure {
    fn from(error: io::Error) -> Failure {
        Failure::Output(error)
    }
}

//! Programs of others that read what the commands write for them.

use std::io::Write;
use std::process::{Command, Stdio};

use super::file;

/// A file of this test's own.
pub fn own(name: &str, text: &str) -> String {
    file(name, text.as_bytes()).to_string_lossy().into_owned()
}

/// What a program prints for a text on its standard input, if it is here.
pub fn read_by(command: &str, arguments: &[&str], text: &str) -> Option<String> {
    let piped = Command::new(command).args(arguments).stdin(Stdio::piped()).stdout(Stdio::piped()).spawn();
    let Ok(mut child) = piped else {
        println!("left out: there is no {command} to read it by");
        return None;
    };
    let mut input = child.stdin.take().expect("a pipe");
    let text = text.to_string();
    let fed = std::thread::spawn(move || input.write_all(text.as_bytes()));
    let output = child.wait_with_output().expect("it ends");
    fed.join().expect("a thread").expect("it reads");
    assert!(output.status.success(), "{command} does not take it");
    Some(String::from_utf8(output.stdout).expect("text"))
}

/// A script of Python that prints each row of a table, with how many cells it has.
pub const ROWS: &str = "import csv, sys\nfor row in csv.reader(sys.stdin.buffer.read().decode().splitlines(True)):\n    print(len(row), row)\n";

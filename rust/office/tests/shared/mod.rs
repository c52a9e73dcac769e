//! What the tests of the commands share: running the program, and files to hand to it. No test uses all of it.

#![allow(dead_code)]

pub mod browser;
pub mod called;
pub mod played;
pub mod readers;
pub mod sheets;

use std::path::{Path, PathBuf};
use std::process::{Command, Output};

/// A file of the folder examples/.
pub fn example(name: &str) -> String {
    let folder = Path::new(env!("CARGO_MANIFEST_DIR")).join("../../examples");
    folder.join(name).to_string_lossy().into_owned()
}

/// The program with arguments, not yet started.
pub fn program(args: &[&str]) -> Command {
    let mut command = Command::new(env!("CARGO_BIN_EXE_fairleadow"));
    command.args(args);
    command
}

/// A file of this test's own, with these contents.
pub fn file(name: &str, contents: &[u8]) -> PathBuf {
    let path = Path::new(env!("CARGO_TARGET_TMPDIR")).join(name);
    std::fs::write(&path, contents).expect("a folder that can be written");
    path
}

/// What a command printed and said, and its status.
pub struct Ran {
    pub printed: String,
    pub said: String,
    pub status: i32,
}

pub fn ran(command: &mut Command) -> Ran {
    let Output { status, stdout, stderr } = command.output().expect("the program starts");
    Ran {
        printed: String::from_utf8(stdout).expect("text"),
        said: String::from_utf8(stderr).expect("text"),
        status: status.code().expect("a status"),
    }
}

pub fn run(args: &[&str]) -> Ran {
    ran(&mut program(args))
}

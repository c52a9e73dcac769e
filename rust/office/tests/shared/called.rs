//! The program as it is called: what it prints, where, and its exit status.

use std::io::Write;
use std::path::{Path, PathBuf};
use std::process::{Command, Stdio};
use std::{env, fs};

/// Exit status, standard output and standard error.
pub type Said = (i32, String, String);

pub fn fairleadow(arguments: &[&str], input: &[u8]) -> Said {
    let mut child = Command::new(env!("CARGO_BIN_EXE_fairleadow"))
        .args(arguments)
        .stdin(Stdio::piped())
        .stdout(Stdio::piped())
        .stderr(Stdio::piped())
        .spawn()
        .expect("the program starts");
    // A wrong call reads nothing.
    let _ = child.stdin.take().expect("a pipe").write_all(input);
    let output = child.wait_with_output().expect("it ends");
    let text = |bytes: Vec<u8>| String::from_utf8(bytes).expect("text");
    (output.status.code().expect("a status"), text(output.stdout), text(output.stderr))
}

pub fn example(name: &str) -> PathBuf {
    Path::new(env!("CARGO_MANIFEST_DIR")).join("../../examples").join(name)
}

pub fn path(name: &str) -> String {
    example(name).to_str().expect("a path").to_string()
}

pub fn file(name: &str) -> String {
    fs::read_to_string(example(name)).expect("an example")
}

/// A file of this test alone.
pub fn written(name: &str, text: &str) -> String {
    let path = env::temp_dir().join(format!("fairleadow-{}-{name}", std::process::id()));
    fs::write(&path, text).expect("a file");
    path.to_str().expect("a path").to_string()
}

//! Graphviz, which lays a drawing out.

use std::io::{ErrorKind, Write};
use std::process::{Command, Stdio};
use std::thread;

/// The drawing as SVG, laid out by `dot`.
pub fn svg(drawing: &str) -> Result<String, String> {
    let started = Command::new("dot")
        .arg("-Tsvg")
        .stdin(Stdio::piped())
        .stdout(Stdio::piped())
        .stderr(Stdio::piped())
        .spawn();
    let mut dot = started.map_err(|error| match error.kind() {
        ErrorKind::NotFound => {
            "dot is not installed: it lays the drawing out (Debian's package graphviz)".to_string()
        }
        _ => format!("dot does not start: {error}"),
    })?;
    let mut input = dot.stdin.take().expect("a pipe");
    let text = drawing.to_string();
    // written beside the reading, so that neither pipe fills up
    let writer = thread::spawn(move || input.write_all(text.as_bytes()));
    let output = dot.wait_with_output().map_err(|error| format!("dot does not end: {error}"))?;
    let written = writer.join().expect("the writer does not panic");
    if !output.status.success() || written.is_err() {
        return Err(format!("dot failed: {}", String::from_utf8_lossy(&output.stderr).trim()));
    }
    String::from_utf8(output.stdout).map_err(|_| "dot printed no text".to_string())
}

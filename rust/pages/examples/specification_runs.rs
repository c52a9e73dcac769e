//! Writes tests/own_words/specification.runs from the specification's pages: the digest of each of their runs of eight words.
//! usage: cargo run --release -p pages --example specification_runs PAGE..

use std::collections::BTreeSet;
use std::path::Path;
use std::{env, fs, io};

#[path = "../tests/own_words/runs.rs"]
mod runs;

fn main() -> io::Result<()> {
    let mut digests = BTreeSet::new();
    for page in env::args().skip(1) {
        digests.extend(
            runs::runs(&fs::read_to_string(page)?).into_iter().map(|(digest, ..)| format!("{digest:010X}")),
        );
    }
    let digests = Vec::from_iter(digests);
    let lines: Vec<String> = digests.chunks(12).map(|line| line.join(" ") + "\n").collect();
    fs::write(
        Path::new(env!("CARGO_MANIFEST_DIR")).join("tests/own_words/specification.runs"),
        lines.concat(),
    )
}

//! Pages, comments, the header and the interfaces speak in words of their own: no eight words of the specification stand in them as they
//! stand there. Of the specification, which lies elsewhere, `specification.runs` has each run of eight words as a digest.

use std::collections::BTreeSet;
use std::fs;
use std::path::{Path, PathBuf};

mod runs;
use pages::root;
use runs::runs;

/// What is read: pages, texts of every language here, and commands without an ending.
const ENDINGS: [&str; 15] =
    ["md", "rt", "antt", "h", "c", "rs", "py", "sh", "txt", "edit", "css", "js", "awk", "S", ""];

/// What is made or kept by tools.
const PASSED_OVER: [&str; 4] = ["target", "out", ".git", "__pycache__"];

fn files(folder: &Path, found: &mut Vec<PathBuf>) {
    for entry in fs::read_dir(folder).unwrap() {
        let path = entry.unwrap().path();
        let name = path.file_name().unwrap().to_str().unwrap();
        let ending = path.extension().map_or("", |ending| ending.to_str().unwrap());
        if path.is_dir() {
            if !PASSED_OVER.contains(&name) {
                files(&path, found);
            }
        } else if ENDINGS.contains(&ending) {
            found.push(path);
        }
    }
}

fn specification() -> BTreeSet<u64> {
    let digests = include_str!("specification.runs");
    digests.split_whitespace().map(|digest| u64::from_str_radix(digest, 16).unwrap()).collect()
}

/// What of a text stands in the specification: lines and words.
fn shared(text: &str, specification: &BTreeSet<u64>) -> Vec<(usize, String)> {
    let runs = runs(text).into_iter();
    runs.filter(|(digest, ..)| specification.contains(digest)).map(|(_, line, words)| (line, words)).collect()
}

#[test]
fn no_run_of_eight_words_is_the_specifications() {
    let specification = specification();
    assert!(specification.len() > 3000, "the digests are there");
    let root = root();
    let mut found = Vec::new();
    files(&root, &mut found);
    assert!(found.len() > 1000, "the files are found: {}", found.len());
    let mut told = Vec::new();
    for path in found {
        let Ok(text) = fs::read_to_string(&path) else { continue };
        let name = path.strip_prefix(&root).unwrap().display().to_string();
        told.extend(
            shared(&text, &specification).into_iter().map(|(line, words)| format!("{name}:{line}: {words}")),
        );
    }
    assert!(told.is_empty(), "{} runs stand in the specification:\n{}", told.len(), told.join("\n"));
}

#[test]
fn a_run_is_found_across_lines_and_marks_and_one_of_numbers_is_not() {
    let specification = "A block that was ruined by one wrong bit stays ruined: 10 01 02 00 00 ED the bytes";
    let digests = runs(specification).into_iter().map(|(digest, ..)| digest).collect();
    let text = "// the block\n// that was ruined: by ONE wrong\n// bit, of 10 01 02 00 00 ED the bytes";
    assert_eq!(shared(text, &digests), [(1, "block that was ruined by ONE wrong bit".to_string())]);
}

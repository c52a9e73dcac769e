//! docs/REFERENCE.md and docs/ARCHITECTURE.md name definitions, laws and functions that stand where they say; the first shows lines
//! whose sums are right; docs/TRACE.md lists the edits, each of which can be made, and names the theorems; a link leads to a file and, if
//! it names one, to a heading of it.

use std::collections::BTreeSet;
use std::fs;
use std::path::{Path, PathBuf};

use pages::{read, root};

/// What may stand between `pub` and the name that is declared.
const KINDS: [&str; 5] = ["record", "data", "fn", "struct", "enum"];

/// Whether a file declares a name: a definition, a law or a function.
fn declares(file: &str, name: &str) -> bool {
    file.lines().any(|line| {
        let Some((_, after)) = line.split_once("pub ") else { return false };
        after.split([' ', ':', '{', '(', '<', ';']).find(|word| !KINDS.contains(word)) == Some(name)
    })
}

/// Each citation, as the names and the file: [`a`, `b` in crate/specs/File]; of code the file is crate/src/file.
fn citations(page: &str) -> Vec<(Vec<&str>, &str)> {
    page.split("[`")
        .skip(1)
        .filter_map(|rest| {
            let (inside, _) = rest.split_once(']')?;
            let (names, file) = inside.rsplit_once(" in ")?;
            Some((names.split(", ").map(|name| name.trim_matches('`')).collect(), file))
        })
        .collect()
}

#[test]
fn every_name_that_is_cited_stands_in_its_file() {
    for path in ["docs/REFERENCE.md", "docs/ARCHITECTURE.md"] {
        let text = read(path);
        let citations = citations(&text);
        assert!(citations.len() > 40, "{path} cites what it speaks of");
        for (names, file) in citations {
            let ending = if file.contains("/src/") { "rt" } else { "antt" };
            let cited = read(format!("crates/{file}.{ending}"));
            for name in names {
                assert!(declares(&cited, name), "{path} cites {name}, which does not stand in {file}");
            }
        }
    }
}

/// The name by which a link leads to a heading: its words in small letters, joined by dashes.
fn anchor(heading: &str) -> String {
    // of a link in a heading the text alone counts
    let parts = heading.split("](").enumerate();
    let text: String = parts
        .map(|(k, part)| if k == 0 { part } else { part.split_once(')').map_or("", |cut| cut.1) })
        .collect();
    let kept = text.chars().filter(|c| c.is_alphanumeric() || " -_".contains(*c));
    kept.map(|c| if c == ' ' { '-' } else { c }).collect::<String>().to_lowercase()
}

fn headings(text: &str) -> BTreeSet<String> {
    text.lines()
        .filter(|line| line.starts_with('#'))
        .map(|line| anchor(line.trim_start_matches('#').trim_start()))
        .collect()
}

#[test]
fn every_link_leads_to_a_file_and_a_heading() {
    let docs = fs::read_dir(root().join("docs")).expect("the pages").filter_map(|entry| {
        let name = entry.expect("an entry").file_name().into_string().expect("a name");
        name.ends_with(".md").then(|| format!("docs/{name}"))
    });
    let others = ["README.md", "CONTRIBUTING.md", "CHANGELOG.md", "controller/README.md"];
    let pages: Vec<String> = docs.chain(others.map(str::to_owned)).collect();
    assert!(pages.len() >= 12, "the pages are found");
    for path in pages {
        let text = read(&path);
        let links = text.split("](").skip(1).filter_map(|rest| rest.split_once(')')).map(|(link, _)| link);
        for link in links.filter(|link| !link.starts_with("http")) {
            let (file, heading) = link.split_once('#').unwrap_or((link, ""));
            let there =
                if file.is_empty() { PathBuf::from(&path) } else { Path::new(&path).with_file_name(file) };
            assert!(root().join(&there).exists(), "{path} leads to {link}, which is not there");
            assert!(heading.is_empty() || headings(&read(there)).contains(heading), "{path} leads to {link}");
        }
    }
}

#[test]
fn every_line_that_the_reference_shows_sums_to_0() {
    let page = read("docs/REFERENCE.md");
    let lines: Vec<&str> = page
        .lines()
        .filter_map(|line| line.strip_prefix("    ")?.split(' ').next())
        .filter(|word| word.len() == 22)
        .collect();
    assert!(lines.len() >= 10, "a line of each kind is shown");
    for line in lines {
        let bytes: Vec<u8> =
            (0..11).map(|k| u8::from_str_radix(&line[2 * k..2 * k + 2], 16).expect("digits")).collect();
        assert_eq!(bytes.iter().fold(0u8, |sum, byte| sum.wrapping_add(*byte)), 0, "{line}");
    }
}

/// The edits that must be refused, as crate and name.
fn edits() -> BTreeSet<(String, String)> {
    let name = |path: PathBuf| path.file_stem().expect("a name").to_string_lossy().into_owned();
    let entries =
        |path: PathBuf| fs::read_dir(path).into_iter().flatten().map(|entry| entry.expect("an entry").path());
    entries(root().join("crates"))
        .flat_map(|folder| {
            let crate_name = name(folder.clone());
            entries(folder.join("must-fail")).map(move |edit| (crate_name.clone(), name(edit)))
        })
        .collect()
}

#[test]
fn the_trace_lists_the_edits_that_must_be_refused() {
    let page = read("docs/TRACE.md");
    let (_, table) = page.split_once("| Crate | Edit |").expect("the table is there");
    let listed: BTreeSet<(String, String)> = table
        .lines()
        .skip(2)
        .take_while(|line| line.starts_with('|'))
        .map(|line| {
            let mut cells = line.split('|').skip(1).map(|cell| cell.trim().to_owned());
            (cells.next().expect("a crate"), cells.next().expect("an edit"))
        })
        .collect();
    assert_eq!(listed, edits());
}

/// The lines of an edit that begin with a word, without it.
fn told<'a>(edit: &'a str, word: &str) -> Vec<&'a str> {
    edit.lines().filter_map(|line| line.strip_prefix(word)).collect()
}

#[test]
fn every_edit_changes_its_file() {
    for (of, name) in edits() {
        let edit = read(format!("crates/{of}/must-fail/{name}.edit"));
        let (files, old, new) = (told(&edit, "file: "), told(&edit, "old: "), told(&edit, "new: "));
        assert!(files.len() == 1 && !old.is_empty() && old.len() == new.len(), "{of}/{name} is an edit");
        let before = read(format!("crates/{of}/{}", files[0]));
        let mut after = before.clone();
        for (old, new) in old.into_iter().zip(new) {
            assert_eq!(after.matches(old).count(), 1, "{of}/{name}: {old}");
            after = after.replace(old, new);
        }
        assert_ne!(before, after, "{of}/{name} changes nothing");
    }
}

/// The texts of a crate's code.
fn code(folder: &Path) -> Vec<String> {
    let mut texts = Vec::new();
    for entry in fs::read_dir(folder).into_iter().flatten() {
        let path = entry.expect("an entry").path();
        if path.is_dir() {
            texts.extend(code(&path));
        } else if path.extension().is_some_and(|ending| ending == "rt") {
            texts.push(fs::read_to_string(path).expect("a text"));
        }
    }
    texts
}

/// The theorems of a text: functions without parameters and with an empty body.
fn theorems(text: &str) -> Vec<String> {
    let lines: Vec<&str> = text.lines().collect();
    let heads = lines.iter().enumerate();
    heads
        .filter_map(|(k, line)| Some((k, line.strip_prefix("pub fn ")?.strip_suffix("()")?)))
        .filter(|(k, _)| lines[k + 1..].iter().find(|line| !line.starts_with(' ')) == Some(&"{}"))
        .map(|(_, name)| name.to_owned())
        .collect()
}

/// The contracts that the trace names with their crate, as crate and function: contract of `f` (crate).
fn contracts() -> BTreeSet<(String, String)> {
    let page = read("docs/TRACE.md");
    let parts = page.lines().flat_map(|line| line.split(['|', ';', ':']));
    let named = parts.filter_map(|part| {
        let (functions, name) = part.split_once("contract")?.1.split_once(" (")?;
        Some((functions, name.split(')').next()?))
    });
    named
        .flat_map(|(functions, name)| {
            let functions = functions.split('`').skip(1).step_by(2);
            functions.map(move |function| (name.to_owned(), function.to_owned()))
        })
        .collect()
}

#[test]
fn the_trace_names_every_theorem_and_the_contracts_that_it_names_are_there() {
    let named = contracts();
    for entry in fs::read_dir(root().join("crates")).expect("the crates") {
        let folder = entry.expect("a crate").path();
        let name = folder.file_name().expect("a name").to_string_lossy().into_owned();
        let texts = code(&folder.join("src"));
        for theorem in texts.iter().flat_map(|text| theorems(text)) {
            assert!(named.contains(&(name.clone(), theorem.clone())), "{theorem} of {name} has a row");
        }
        let functions = named.iter().filter(|(of, function)| *of == name && !function.contains(' '));
        for (_, function) in functions {
            let there = |text: &String| {
                [format!("fn {function}("), format!("fn {function}<")].iter().any(|head| text.contains(head))
            };
            assert!(texts.iter().any(there), "{function} stands in {name}");
        }
    }
}

//! Chart lines into the notation and back: nothing is lost either way, but for the size of letters.

use std::fmt::Write;
use std::fs;
use std::path::{Path, PathBuf};

use comparison::generate::{charts, letters, Random};
use fairleadow::{Library, Proved, CHART_TEXT, RECORD, RECORDS};
use office::notation::Notation;
use office::source;
use reference::frames::text_of;

fn examples(extension: &str) -> Vec<PathBuf> {
    let folder = Path::new(env!("CARGO_MANIFEST_DIR")).join("../../examples");
    let files = fs::read_dir(folder).expect("the examples").map(|file| file.expect("a file").path());
    let mut found: Vec<PathBuf> =
        files.filter(|path| path.extension().is_some_and(|own| own == extension)).collect();
    found.sort();
    assert!(found.len() >= 5);
    found
}

fn shown(chart: &[u8]) -> String {
    let mut records = [0; RECORDS];
    let count = Proved.read_chart(chart, &mut records).expect("a chart");
    Notation::of_records(&records[..count * RECORD]).layout()
}

/// Show, then compose, gives the same lines in capitals; laying the shown text out again gives the same text.
fn show_then_compose(chart: &[u8]) {
    let text = shown(chart);
    let notation = Notation::parse(&text).unwrap_or_else(|problem| panic!("{problem}\n{text}"));
    assert_eq!(
        notation.chart_lines().expect("a chart").escape_ascii().to_string(),
        chart.to_ascii_uppercase().escape_ascii().to_string()
    );
    assert_eq!(notation.layout(), text);
}

#[test]
fn examples_shown_and_composed() {
    for path in examples("chart") {
        show_then_compose(&fs::read(&path).expect("a chart"));
    }
}

#[test]
fn examples_in_the_notation_give_their_charts() {
    for path in examples("txt") {
        let text = fs::read_to_string(&path).expect("the notation");
        let source = source::load(path.to_str().expect("a path")).expect("accepted");
        assert!(
            source.text == fs::read(path.with_extension("chart")).expect("a chart"),
            "{}",
            path.display()
        );
        assert_eq!(source.notation.expect("the notation").layout(), text, "{} is laid out", path.display());
    }
    assert_eq!(examples("txt").len(), examples("chart").len());
}

#[test]
fn random_charts_shown_and_composed() {
    let mut marked = 0;
    for seed in 0..5_000 {
        let random = &mut Random::new(seed);
        let records = charts::chart(random);
        let chart = letters::sizes(random, text_of(&records));
        show_then_compose(&chart);
        marked += usize::from(shown(&chart).contains("begin when the stack is full -> "));
    }
    assert!(marked > 1_000, "{marked} with a handler");
}

/// Some letters that are no name of a number.
fn name(random: &mut Random, prefix: &str, number: usize) -> String {
    let letters: String =
        (0..random.below(6)).map(|_| random.pick(&['a', 'Z', '_', '7', 'é', 'ж'])).collect();
    format!("{prefix}_{letters}{number}")
}

/// The shown text of a chart with names for some of everything, and with comments.
fn named(random: &mut Random, shown: &str) -> String {
    let mut text = String::from("# names\n\n");
    for number in (0..16).filter(|_| random.once_in(2)).collect::<Vec<_>>() {
        writeln!(text, "condition {number} {}", name(random, "c", number)).unwrap();
    }
    for number in (0..32).filter(|_| random.once_in(2)).collect::<Vec<_>>() {
        writeln!(text, "output {number} {}  # output", name(random, "o", number)).unwrap();
    }
    let schemes: Vec<Option<String>> =
        (1..=16).map(|number| random.once_in(2).then(|| name(random, "s", number))).collect();
    for line in shown.lines() {
        let number = line.strip_prefix("scheme ").and_then(|number| number.parse::<usize>().ok());
        let given = number.and_then(|number| schemes[number - 1].as_deref()).filter(|_| random.once_in(2));
        writeln!(text, "{line} {}", given.unwrap_or("# none")).unwrap();
    }
    text
}

/// Compose, show, compose: the same lines and names, and the shown text is laid out.
#[test]
fn names_and_comments_are_kept() {
    for seed in 0..3_000 {
        let random = &mut Random::new(seed);
        let chart = text_of(&charts::chart(random));
        let text = named(random, &shown(&chart));
        let first = Notation::parse(&text).unwrap_or_else(|problem| panic!("{problem}\n{text}"));
        assert!(first.chart_lines().expect("a chart") == chart);
        let laid_out = first.layout();
        let second = Notation::parse(&laid_out).unwrap_or_else(|problem| panic!("{problem}\n{laid_out}"));
        assert_eq!((&second.records, &second.names), (&first.records, &first.names));
        assert_eq!(second.layout(), laid_out);
        assert_eq!(laid_out.matches("# output").count(), text.matches("# output").count());
        assert_eq!(laid_out.lines().count(), text.lines().count());
    }
}

/// Whatever the notation accepts, the library is asked: the largest charts and those with too many nodes.
#[test]
fn too_many_nodes_are_told() {
    let operations = |count: usize| {
        let mut text = String::from("scheme 1\nbegin -> a0\n");
        for node in 0..count {
            let next = if node + 1 == count { "end".to_string() } else { format!("a{}", node + 1) };
            writeln!(text, "a{node}: do y1 -> {next}").unwrap();
        }
        text + "end\n"
    };
    let chart = source::from_notation(&operations(254)).expect("256 nodes");
    assert_eq!(chart.text.len(), CHART_TEXT);
    let problem = source::from_notation(&operations(299)).unwrap_err();
    assert_eq!(problem.words, "there are 301 nodes, and 256 are the most");
    assert_eq!(problem.line, Some(2 + 256));
}

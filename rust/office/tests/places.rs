//! How many places a chart needs: the library's number, with a chain or a circle of calls that bears it out.

mod shared;

use std::collections::BTreeMap;
use std::fs;

use comparison::generate::{chains, Random};
use fairleadow::{Library, Proved, Refusal, RECORD, RECORDS};
use office::calls::Calls;
use office::chart::{nodes, Node};
use office::explain;
use office::kind::Kind;
use office::marking::called;
use office::places::needed;
use office::source::from_notation;
use reference::frames::{text_of, Frame};
use shared::{example, file, run};

/// What is said of each example.
const EXAMPLES: [(&str, &str); 9] = [
    ("bore", "needs 2 places: drilling > bore_test"),
    ("branches", "needs 1 place: branches"),
    ("finishing", "needs 2 places: finishing > polishing"),
    ("full_stack", "may need any number of places: roughing calls itself"),
    ("home", "needs 1 place: s1"),
    ("paper", "may need any number of places: s2 calls itself"),
    ("roughing", "may need any number of places: roughing calls itself"),
    ("swapped", "needs 2 places: blocks > roughing"),
    ("two_blocks", "needs 2 places: boring > bore_test"),
];

#[test]
fn each_example_is_told() {
    let named = fs::read_dir(example("")).expect("the examples").map(|file| file.expect("a file").path());
    let notations = named.filter(|path| path.extension().is_some_and(|own| own == "txt")).count();
    assert_eq!(notations, EXAMPLES.len());
    for (name, words) in EXAMPLES {
        let path = example(&format!("{name}.txt"));
        let checked = run(&["check", &path]);
        let first = checked.printed.lines().next().expect("a line");
        assert!(first.ends_with(&format!("; {words}")), "{}", checked.printed);
        assert_eq!((checked.status, checked.said.as_str()), (0, ""));
        let told = run(&["places", &path]);
        if words.starts_with("needs") {
            assert_eq!(
                (told.status, told.printed, told.said),
                (0, format!("{path}: {words}\n"), String::new())
            );
        } else {
            assert_eq!((told.status, told.printed.as_str()), (1, ""));
            assert!(
                told.said.contains("calls itself\n") && told.said.contains("\n  refusal 20: "),
                "{}",
                told.said
            );
        }
    }
}

/// The library's number is that of the schemes of the chain, and 20 has a circle that scheme 1 leads to. Numbers met are counted,
/// and 20 as 0.
fn hold(records: &[Frame], met: &mut BTreeMap<usize, usize>) {
    let text = text_of(records);
    let answer = Proved.places(&text);
    let mut read = [0; RECORDS];
    let Ok(count) = Proved.read_chart(&text, &mut read) else { return };
    let chart = nodes(&read[..count * RECORD]);
    match (answer, Calls::of(&chart)) {
        (Ok(places), Calls::Chain(schemes)) => {
            assert_eq!(schemes.len(), places);
            assert_eq!(schemes[0], 1);
            assert!(schemes.windows(2).all(|pair| calls(&chart, pair[0], pair[1])), "{schemes:?}");
            *met.entry(places).or_default() += 1;
        }
        (Err(refusal @ Refusal::CallsItself), Calls::Circle(round)) => {
            let next = round.iter().cycle().skip(1);
            assert!(round.iter().zip(next).all(|(at, next)| called(&chart[*at]) == chart[*next].scheme()));
            assert!(reached(&chart).contains(&chart[round[0]].scheme()));
            let told = explain::refusal(&text, Kind::Chart, refusal);
            assert!(!told.is_internal() && told.words.contains("calls itself"), "{told}");
            assert_eq!((told.line, told.column), (Some(round[0] + 1), Some(5)));
            *met.entry(0).or_default() += 1;
        }
        (Err(Refusal::ManyRows), _) => {}
        (answer, calls) => panic!("{answer:?} {calls:?}\n{}", text.escape_ascii()),
    }
}

fn calls(chart: &[Node], from: u8, to: u8) -> bool {
    chart.iter().any(|node| node.scheme() == from && called(node) == to)
}

/// The schemes that calls lead to from scheme 1, and scheme 1.
fn reached(chart: &[Node]) -> Vec<u8> {
    let mut reached = vec![1];
    let mut at = 0;
    while at < reached.len() {
        let further = (2..=16).filter(|to| calls(chart, reached[at], *to) && !reached.contains(to));
        let further: Vec<u8> = further.collect();
        reached.extend(further);
        at += 1;
    }
    reached
}

#[test]
fn random_charts_have_as_many_schemes_in_a_chain() {
    let mut met = BTreeMap::new();
    for seed in 0..10_000 {
        hold(&chains::chart(&mut Random::new(seed)), &mut met);
    }
    println!("{met:?}");
    assert!((0..=16).all(|places| met[&places] >= 50), "{met:?}");
}

const THROUGH: &str = "\
scheme 1 shaping
       begin -> start
start: do y0; call roughing -> end
       end

scheme 2 roughing
       begin -> ask
ask:   if call feeling then end else end
       end

scheme 3 feeling
       begin -> cut
cut:   do y1; call roughing -> end
       end
";

#[test]
fn a_circle_through_others_names_each_call() {
    let path = file("through.txt", THROUGH.as_bytes());
    let path = path.to_str().expect("a path");
    let checked = run(&["check", path]).printed;
    assert!(
        checked.contains("; may need any number of places: roughing calls itself through feeling\n"),
        "{checked}"
    );
    let said = run(&["places", path]).said;
    let lines: Vec<&str> = said.lines().collect();
    let first = "line 8 (node ask): scheme roughing calls itself through others: it calls scheme feeling at ask (line 8), \
                 which calls scheme roughing at cut (line 13)";
    assert_eq!(lines[0], format!("{path}: {first}"));
    assert_eq!(lines[1..3], ["    ask:   if call feeling then end else end", "              ^"]);
}

/// In chart lines a call stands in byte 2.
#[test]
fn a_circle_of_chart_lines_is_told_by_lines_and_columns() {
    let first_line = |text: &[u8]| needed(text).expect_err("a circle").words;
    let roughing = fs::read(example("roughing.chart")).expect("an example");
    assert_eq!(first_line(&roughing), "line 8, column 5: scheme 2 calls itself");
    let through = from_notation(THROUGH).expect("a chart").text;
    let words = "line 5, column 5: scheme 2 calls itself through others: it calls scheme 3 at line 5, which calls scheme 2 at \
                 line 8";
    assert_eq!(first_line(&through), words);
}

/// A circle that scheme 1 does not lead to does not matter.
#[test]
fn a_circle_out_of_reach_is_passed_over() {
    let path = file("apart.txt", THROUGH.replace("y0; call roughing", "y0").as_bytes());
    let path = path.to_str().expect("a path");
    assert_eq!(run(&["places", path]).printed, format!("{path}: needs 1 place: shaping\n"));
}

/// What is no chart is refused as everywhere.
#[test]
fn other_refusals_come_first() {
    let paper = fs::read_to_string(example("paper.chart")).expect("an example");
    let path = file("sum.chart", paper.replace("F8", "F9").as_bytes());
    let said = run(&["places", path.to_str().expect("a path")]).said;
    assert!(said.contains(": line 2, column 21: the sum should be F8, not F9\n"), "{said}");
}

//! Damaged charts and images: for whatever the library refuses a reason is found, at the line that the library names.

use std::collections::BTreeMap;
use std::fs;
use std::path::Path;

use comparison::generate::{charts, damage, images, Random};
use fairleadow::{Answer, Library, Proved, Refusal, CHART_TEXT, IMAGE_TEXT, LINE};
use office::explain;
use office::kind::Kind;
use office::notation::Notation;
use office::problem::Problem;
use reference::frames::{text_of, Frame};

/// How often each refusal was met.
type Met = BTreeMap<u8, usize>;

/// A reason that names the library's line, and a column of it where it names one.
fn held(text: &[u8], asked: Kind, answer: Answer, met: &mut Met) {
    let Err(refusal) = answer else { return };
    *met.entry(refusal.number()).or_default() += 1;
    let problem = explain::refusal(text, asked, refusal);
    let shown = || format!("{problem}\n{answer:?}\n{}", text.escape_ascii());
    assert!(!problem.is_internal() && !problem.advice.is_empty(), "{}", shown());
    assert_eq!(problem.refusal, Some(refusal));
    if let Some(frame) = refusal.frame() {
        assert_eq!(problem.line, Some(frame + 1), "{}", shown());
        assert!((1..=LINE).contains(&problem.column.expect("a column")), "{}", shown());
        assert!(problem.words.contains(&format!("line {}", frame + 1)), "{}", shown());
    }
    repaired(text, &problem);
}

/// A line with the sum that the words name is not refused for its sum again.
fn repaired(text: &[u8], problem: &Problem) {
    let Some((_, sum)) = problem.words.split_once("the sum should be ") else { return };
    let mut text = text.to_vec();
    let at = (problem.line.unwrap() - 1) * LINE + problem.column.unwrap() - 1;
    text[at..at + 2].copy_from_slice(&sum.as_bytes()[..2]);
    if let Err(Refusal::BadSum(index)) = Proved.check_image(&text) {
        assert!(index >= problem.line.unwrap());
    }
}

fn hold_chart(text: &[u8], met: &mut Met) {
    held(text, Kind::Chart, Proved.translate(text, &mut [0; IMAGE_TEXT]), met);
}

fn hold_image(text: &[u8], met: &mut Met) {
    held(text, Kind::Image, Proved.check_image(text), met);
}

/// The same records, refused in the notation: a reason at the line of the node.
fn hold_records(records: &[Frame], met: &mut Met) {
    let answer = Proved.write_chart(&records.concat(), &mut [0; CHART_TEXT]);
    let Err(refusal) = answer else { return };
    *met.entry(refusal.number()).or_default() += 1;
    let lines: Vec<usize> = (0..records.len()).map(|node| 2 * node + 5).collect();
    let problem = explain::composed(&records.concat(), &Default::default(), &lines, refusal);
    assert!(!problem.is_internal(), "{answer:?} {records:?}");
    if let Some(frame) = refusal.frame() {
        assert_eq!(problem.line, Some(2 * frame + 5));
        assert!(problem.words.starts_with(&format!("line {} (node n{frame}): ", 2 * frame + 5)));
    }
}

#[test]
fn damaged_charts() {
    let (mut met, mut composed) = (Met::new(), Met::new());
    for seed in 0..40_000 {
        let random = &mut Random::new(seed);
        let records = charts::chart(random);
        hold_chart(&text_of(&records), &mut met);
        let damaged = damage::records(random, &records);
        hold_chart(&text_of(&damaged), &mut met);
        hold_records(&damaged, &mut composed);
        hold_chart(&damage::text(random, &text_of(&records)), &mut met);
    }
    println!("charts: {met:?}, records: {composed:?}");
    assert!((1..=10).chain([19]).all(|number| met[&number] >= 100), "{met:?}");
    assert!([4, 5, 6, 7, 8, 9, 19].iter().all(|number| composed[number] >= 100), "{composed:?}");
}

#[test]
fn damaged_images() {
    let mut met = Met::new();
    for seed in 0..40_000 {
        let random = &mut Random::new(seed);
        hold_image(&images::text(random), &mut met);
    }
    println!("images: {met:?}");
    assert!([1, 2, 3, 11, 12, 13].iter().all(|number| met[number] >= 100), "{met:?}");
}

/// The text with another byte in a field of a line, the line's sum right again.
fn with_byte(text: &[u8], line: usize, byte: usize, value: u8) -> Vec<u8> {
    let mut text = text.to_vec();
    let start = (line - 1) * LINE;
    let digits = format!("{value:02X}");
    text[start + 2 * byte..start + 2 * byte + 2].copy_from_slice(digits.as_bytes());
    let number = |k: usize| {
        let digits = std::str::from_utf8(&text[start + 2 * k..start + 2 * k + 2]).expect("digits");
        u8::from_str_radix(digits, 16).expect("digits")
    };
    let sum = (0..10).fold(0u8, |sum, k| sum.wrapping_sub(number(k)));
    text[start + 20..start + 22].copy_from_slice(format!("{sum:02X}").as_bytes());
    text
}

/// Some other byte in the field that is blamed settles it: the library has nothing against this line any more, or the
/// fault is at a later field.
fn hold_blame(text: &[u8], asked: Kind, met: &mut Met) {
    let ask = |text: &[u8]| match asked {
        Kind::Image => Proved.check_image(text),
        _ => Proved.translate(text, &mut [0; IMAGE_TEXT]),
    };
    let blamed = |refusal: &Refusal| matches!(refusal.number(), 4 | 6 | 7 | 12 | 13);
    let Some(refusal) = ask(text).err().filter(blamed) else { return };
    *met.entry(refusal.number()).or_default() += 1;
    let problem = explain::refusal(text, asked, refusal);
    let (line, column) = (problem.line.expect("a line"), problem.column.expect("a column"));
    let settled = (0..=255).any(|value| {
        let repaired = with_byte(text, line, (column - 1) / 2, value);
        ask(&repaired) != Err(refusal) || explain::refusal(&repaired, asked, refusal).column > Some(column)
    });
    assert!(settled, "{problem}\n{}", text.escape_ascii());
}

#[test]
fn the_field_that_is_blamed_is_the_fault() {
    let mut met = Met::new();
    for seed in 0..3_000 {
        let random = &mut Random::new(seed);
        let records = charts::chart(random);
        let chart = text_of(&damage::records(random, &records));
        hold_blame(&chart, Kind::Chart, &mut met);
        hold_blame(&images::text(random), Kind::Image, &mut met);
    }
    assert!([4, 6, 7, 12, 13].iter().all(|number| met[number] >= 20), "{met:?}");
}

/// The largest charts are explained as soon as small ones.
#[test]
fn rows_of_the_longest_paths_are_counted() {
    use comparison::samples::{longest_path, Before};
    for before in [Before::Begin, Before::Operation, Before::Function] {
        let text = text_of(&longest_path(before, 16));
        assert_eq!(Proved.translate(&text, &mut [0; IMAGE_TEXT]), Err(Refusal::ManyRows));
        let words = explain::refusal(&text, Kind::Chart, Refusal::ManyRows).words;
        assert!(words.contains(" has 65,536") || words.contains(" has 131,072"), "{words}");
    }
}

/// Every character of a text becomes each of these in turn.
fn each_character(text: &[u8], met: &mut Met, hold: fn(&[u8], &mut Met)) {
    let mut damaged = text.to_vec();
    for at in 0..text.len() {
        for character in 0..=255 {
            damaged[at] = character;
            hold(&damaged, met);
        }
        damaged[at] = text[at];
    }
}

#[test]
fn every_character_of_the_examples() {
    let folder = Path::new(env!("CARGO_MANIFEST_DIR")).join("../../examples");
    let mut met = Met::new();
    for name in ["bore", "finishing", "full_stack", "home", "paper", "roughing", "two_blocks"] {
        let file = |kind: &str| fs::read(folder.join(name).with_extension(kind)).expect("an example");
        each_character(&file("chart"), &mut met, hold_chart);
        each_character(&file("image"), &mut met, hold_image);
    }
    assert!(met[&2] > 1_000 && met[&3] > 1_000);
}

/// Texts that are no chart at all are refused with a reason too.
#[test]
fn any_bytes() {
    let mut met = Met::new();
    for seed in 0..20_000 {
        let random = &mut Random::new(seed);
        let length = random.below(200);
        let sort = random.below(3);
        let byte = |random: &mut Random| match sort {
            0 => random.byte(),
            1 => random.pick(b"0123456789ABCDEF\n\r "),
            _ => random.pick(b"0F\n"),
        };
        let text: Vec<u8> = (0..length).map(|_| byte(random)).collect();
        hold_chart(&text, &mut met);
        hold_image(&text, &mut met);
    }
    assert!(met[&1] > 10_000);
}

/// The node that a refusal names is found by its line in the notation too, when schemes stand mixed.
#[test]
fn the_notation_knows_the_line_of_each_node() {
    for seed in 0..2_000 {
        let records = charts::chart(&mut Random::new(seed));
        let notation = Notation::of_records(&records.concat());
        let text = notation.layout();
        let lines: Vec<&str> = text.lines().collect();
        assert_eq!(notation.node_lines().len(), records.len());
        for (node, line) in notation.node_lines().into_iter().enumerate() {
            let label = lines[line - 1].split_once(':').map(|(label, _)| label.to_string());
            assert_eq!(label, (records[node][0] > 1).then(|| format!("n{node}")), "{text}");
        }
    }
}

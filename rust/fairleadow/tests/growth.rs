//! What the benchmark `growth` measures: both sides answer alike at each size, and docs/MEASUREMENTS.md and its picture have each series.

#[path = "../benches/growth/series.rs"]
mod series;

use std::fs;
use std::path::Path;

use comparison::entry_point::EntryPoint;
use fast::Fast;
use proved::{Proved, Refusal};

fn read(path: &str) -> String {
    let path = Path::new(env!("CARGO_MANIFEST_DIR")).join("../..").join(path);
    fs::read_to_string(&path).unwrap_or_else(|error| panic!("{}: {error}", path.display()))
}

#[test]
fn both_sides_answer_alike_at_each_size() {
    for one in series::all() {
        for size in one.by.sizes() {
            let input = (one.input)(size);
            let [library, fast] = [one.call.make(&Proved, &input), one.call.make(&Fast, &input)];
            assert!(library == fast, "{}, {}, {size} {}", one.call.name(), one.inputs, one.by.name());
            let circle = matches!(library.answer, Err(Refusal::Circle(_)));
            let made = if one.inputs.ends_with("a circle") { circle } else { library.answer.is_ok() };
            assert!(made, "{}, {}, {size}: {:?}", one.call.name(), one.inputs, library.answer);
        }
    }
}

/// A row for each series, in order, with its largest size and its power, and a row for each call's longest construction.
#[test]
fn the_page_has_what_the_benchmark_prints() {
    let page = read("docs/MEASUREMENTS.md");
    let (_, section) = page.split_once("\n## How calls grow\n").expect("a section");
    let section = section.split("\n## ").next().expect("a section");
    let rows: Vec<Vec<&str>> = section
        .lines()
        .filter(|line| line.starts_with("| ") && !line.starts_with("| Call "))
        .map(|line| line.trim_matches('|').split('|').map(str::trim).collect())
        .collect();
    let (grown, longest): (Vec<_>, Vec<_>) = rows.into_iter().partition(|row| row.len() > 8);
    let told: Vec<[String; 4]> =
        grown.iter().map(|row| [0, 1, 2, row.len() - 1].map(|at| row[at].replace(',', ""))).collect();
    let wanted: Vec<[String; 4]> = series::all()
        .iter()
        .map(|one| {
            let up_to = format!("{} {}", one.by.largest(), one.by.name());
            [one.call.name().to_string(), one.inputs.replace(',', ""), up_to, one.power.to_string()]
        })
        .collect();
    assert_eq!(told, wanted);
    let calls: Vec<&str> = longest.iter().map(|row| row[0]).collect();
    assert_eq!(calls, EntryPoint::ALL.map(EntryPoint::name));
}

#[test]
fn the_picture_has_a_panel_for_each_series() {
    let picture = read("docs/pictures/growth.svg");
    let texts = |class: &str| -> Vec<String> {
        let start = format!("class=\"{class}\">");
        picture.split(&start).skip(1).map(|rest| rest.split('<').next().unwrap_or("").to_string()).collect()
    };
    let all = series::all();
    assert_eq!(texts("call"), all.iter().map(|one| one.call.name().to_string()).collect::<Vec<_>>());
    assert_eq!(texts("inputs"), all.iter().map(|one| one.inputs.to_string()).collect::<Vec<_>>());
}

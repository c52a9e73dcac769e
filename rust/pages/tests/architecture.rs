//! The drawing of the crates, and the tables that tell of them in docs/ARCHITECTURE.md and README.md, are those of crates.txt.

use std::collections::BTreeSet;
use std::fs;

use pages::{read, root};

#[path = "../examples/draw_crates/drawing/mod.rs"]
mod drawing;

#[test]
fn the_drawing_is_that_of_the_list() {
    let drawn = drawing::drawn(&drawing::areas(&read("crates.txt")));
    assert!(
        drawn == read("docs/pictures/crates.svg"),
        "crates.txt has changed: cargo run --release -p pages --example draw_crates"
    );
}

#[test]
fn the_architecture_has_every_crate_in_its_area() {
    let page = read("docs/ARCHITECTURE.md");
    let (_, table) = page.split_once("| Area | Crates | Promise |").expect("the table is there");
    let mut told: Vec<(String, Vec<String>)> = Vec::new();
    for row in table.lines().skip(2).take_while(|line| line.starts_with('|')) {
        let cells: Vec<&str> = row.split('|').map(str::trim).collect();
        if !cells[1].is_empty() {
            told.push((cells[1].to_owned(), Vec::new()));
        }
        let (_, crates) = told.last_mut().expect("the first row names an area");
        crates.extend(cells[2].split(", ").map(str::to_owned));
    }
    let mut listed: Vec<(String, Vec<String>)> =
        drawing::areas(&read("crates.txt")).into_iter().map(|area| (area.name, area.crates)).collect();
    // within an area crates that belong together share a row, so that their order may be another
    told.iter_mut().chain(&mut listed).for_each(|(_, crates)| crates.sort());
    assert_eq!(told, listed);
}

/// The modules of a crate: those of its code, and those of its definitions, whose files begin with a capital.
fn modules(name: &str) -> BTreeSet<String> {
    let folder = root().join("crates").join(name);
    let lists = ["src/lib.rt", "specs/Lib.antt"];
    let texts = lists.map(|list| fs::read_to_string(folder.join(list)).unwrap_or_default());
    let lines = texts.iter().flat_map(|text| text.lines());
    lines
        .filter_map(|line| line.trim_start_matches("pub ").strip_prefix("mod "))
        .map(|module| module.trim_end_matches(';').to_owned())
        .filter(|module| !module.starts_with(char::is_uppercase) && module != "inner" && module != "tests")
        .collect()
}

#[test]
fn the_architecture_tells_every_layer_bottom_up_with_its_modules() {
    let page = read("docs/ARCHITECTURE.md");
    let (_, table) = page.split_once("| Layer | Subject | Modules |").expect("the table is there");
    let mut told = Vec::new();
    for row in table.lines().skip(2).take_while(|line| line.starts_with('|')) {
        let cells: Vec<&str> = row.split('|').map(str::trim).collect();
        // what stands in brackets tells of the modules before it
        let outside = cells[3].split(['(', ')']).step_by(2).flat_map(|part| part.split([',', ' ']));
        let named: BTreeSet<String> =
            outside.filter(|word| !["", "and"].contains(word)).map(str::to_owned).collect();
        for name in cells[1].split(", ") {
            assert_eq!(named, modules(name), "the modules of {name}");
            told.push(name.to_owned());
        }
    }
    let listed: Vec<String> =
        drawing::areas(&read("crates.txt")).into_iter().flat_map(|area| area.crates).collect();
    assert_eq!(told, listed);
}

#[test]
fn the_readme_names_every_area() {
    let page = read("README.md");
    let (_, layout) = page.split_once("## Layout").expect("the section is there");
    let named: Vec<&str> = layout
        .split("\n## ")
        .next()
        .expect("a section")
        .lines()
        .filter_map(|line| line.strip_prefix("- **")?.split("**").next())
        .collect();
    let listed: Vec<String> = drawing::areas(&read("crates.txt")).into_iter().map(|area| area.name).collect();
    assert_eq!(named, listed);
}

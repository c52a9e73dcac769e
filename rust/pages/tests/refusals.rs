//! Code, header, wrapper, office program and pages tell each refusal as the one table of docs/REFUSALS.md does, and who tries which as that
//! of docs/REFERENCE.md does.

use std::collections::{BTreeMap, BTreeSet};

use interface::Refusal;
use pages::{between, read, rows};

const BENCH: &str = "docs/REFUSALS.md";
const REFERENCE: &str = "docs/REFERENCE.md";
const HEADER: &str = "include/fairleadow.h";
const CODE: &str = "crates/text/src/frames/refusals.rt";

/// A row of the one table.
struct Told {
    number: u8,
    name: String,
    /// The frame, the node or the ticks that it names.
    names: String,
    refused: String,
    short: String,
    rule: String,
}

fn table() -> Vec<Told> {
    let rows = rows(&read(BENCH), "| Number | Name | Names |");
    let told = rows.into_iter().map(|cells| {
        let [number, name, names, refused, short, rule] = cells.try_into().expect("six cells");
        let (number, name) = (number.parse().expect("a number"), name.trim_matches('`').to_owned());
        Told { number, name, names, refused, short, rule }
    });
    told.collect()
}

/// Numbers as the pages list them: each run of four or more by its ends.
fn listed(numbers: impl IntoIterator<Item = u8>) -> String {
    let mut runs: Vec<(u8, u8)> = Vec::new();
    for number in numbers {
        match runs.last_mut() {
            Some((_, last)) if *last + 1 == number => *last = number,
            _ => runs.push((number, number)),
        }
    }
    let run = |&(first, last): &(u8, u8)| match last - first {
        0..=2 => (first..=last).map(|number| number.to_string()).collect::<Vec<_>>().join(", "),
        _ => format!("{first} to {last}"),
    };
    let told = runs.iter().map(run).collect::<Vec<_>>().join(", ");
    told.rsplit_once(", ").map_or(told.clone(), |(before, last)| format!("{before} and {last}"))
}

/// The numbers that a text tries, in its order.
fn numbers(text: &str) -> Vec<u8> {
    let text = text.replace(" to ", "-");
    let words = text.split(|c: char| !c.is_ascii_digit() && c != '-');
    let ends = words.filter_map(|word| {
        let (first, last) = word.split_once('-').unwrap_or((word, word));
        Some((first.parse::<u8>().ok()?, last.parse::<u8>().ok()?))
    });
    ends.flat_map(|(first, last)| first..=last).collect()
}

/// What each call tries, in the words of the reference, and what its success counts.
fn tried() -> BTreeMap<String, (String, String)> {
    let rows = rows(&read(REFERENCE), "| Entry point | Call | Tries, in this order |");
    rows.into_iter()
        .map(|cells| {
            let [_, call, tries, counts] = cells.try_into().expect("four cells");
            (call.trim_matches('`').to_owned(), (tries, counts))
        })
        .collect()
}

/// The name of a case of the code's enum.
fn case(name: &str) -> String {
    let word = |word: &str| word[..1].to_owned() + &word[1..].to_lowercase();
    name.split('_').map(word).collect()
}

#[test]
fn the_table_has_each_number_once() {
    let numbers: Vec<u8> = table().iter().map(|told| told.number).collect();
    assert_eq!(numbers, Vec::from_iter(1..=28));
    let of_page = |page: &str, start: &str| -> Vec<u8> {
        rows(&read(page), start).iter().map(|cells| cells[0].parse().expect("a number")).collect()
    };
    assert_eq!(of_page(BENCH, "| Number | Shown as |"), numbers);
    assert_eq!(of_page(REFERENCE, "| Number | Refused is |"), numbers);
    for (cells, number) in rows(&read(BENCH), "| Number | Shown as |").iter().zip(numbers) {
        assert_eq!(cells[1], format!("{number:02X}"));
    }
}

#[test]
fn the_code_has_the_names_numbers_and_words_of_the_table() {
    let code = read(CODE);
    let cases = between(&code, "pub enum Refusal {\n", "}\n\n");
    assert_eq!(code.matches("pub const ").count(), table().len());
    for told in table() {
        let (name, case) = (&told.name, case(&told.name));
        let constant = format!("\n/// {}\npub const {name}: u8 = {};\n", told.refused, told.number);
        assert!(code.contains(&constant), "{constant}");
        let (carried, bound) = match told.names.as_str() {
            "" => (format!("    {case},"), format!("Refusal::{case} =>")),
            "ticks" => (format!("    {case} {{ ticks: usize }},"), format!("Refusal::{case} {{ ticks }}")),
            names => (format!("    {case}(usize),"), format!("Refusal::{case}({names})")),
        };
        assert!(cases.lines().any(|line| line == carried), "{carried}");
        assert!(code.contains(&bound), "{bound}");
    }
}

#[test]
fn header_and_wrapper_have_the_names_numbers_and_words_of_the_table() {
    let header = read(HEADER);
    let texts: Vec<&str> = between(&header, "texts[] = {", "};").split('"').skip(1).step_by(2).collect();
    assert_eq!((texts.len(), texts[0]), (table().len() + 1, "done"));
    for Told { number, name, names, short, .. } in table() {
        let words = format!("FAIRLEADOW_{name} = {number}");
        let line = header.lines().find(|line| line.trim_start().starts_with(&words)).expect(&words);
        assert!(line.ends_with(&format!("/* {short} */")), "{line}");
        assert_eq!(texts[usize::from(number)], short);
        // an index is told of a frame and a node, a count of ticks, and neither of any other refusal
        let carried = match names.as_str() {
            "" => [(0, 0); 2],
            "ticks" => [(0, 0), (0, 9)],
            _ => [(0, 0), (9, 0)],
        };
        for (index, count) in [(0, 0), (9, 0), (0, 9), (9, 9)] {
            let told = Refusal::told(number, index, count);
            assert_eq!(told.is_some(), carried.contains(&(index, count)), "{number}, {index}, {count}");
            let Some(refusal) = told else { continue };
            assert_eq!((refusal.number(), refusal.sense()), (number, short.as_str()));
            assert!(format!("{refusal:?}").starts_with(&case(&name)), "{name}");
            assert_eq!(refusal.frame().is_some(), ["frame", "node"].contains(&names.as_str()), "{number}");
            assert_eq!(refusal.to_string().contains(&format!("after {count} ticks")), names == "ticks");
        }
    }
}

#[test]
fn the_office_program_has_the_rules_of_the_table() {
    let code = read("rust/office/src/explain/rules.rs");
    let rules: Vec<&str> = between(&code, "] = [", "];").split('"').skip(1).step_by(2).collect();
    assert_eq!(rules, Vec::from_iter(table().iter().map(|told| told.rule.as_str())));
}

#[test]
fn the_pages_and_the_header_say_which_numbers_name_a_frame_and_which_count_ticks() {
    let table = table();
    let of = |test: &dyn Fn(&str) -> bool| {
        listed(table.iter().filter(|told| test(&told.names)).map(|told| told.number))
    };
    let (indexed, uncounted) =
        (of(&|names| ["frame", "node"].contains(&names)), of(&|names| names != "ticks"));
    for page in [BENCH, REFERENCE, HEADER] {
        assert!(read(page).contains(&indexed), "{page}: {indexed}");
    }
    for page in [REFERENCE, HEADER] {
        assert!(read(page).contains(&uncounted), "{page}: {uncounted}");
    }
    assert!(read(BENCH).contains(&format!("{} of runs", of(&|names| names == "ticks"))));
}

/// What the header says in front of each function that refuses.
fn remarks() -> BTreeMap<String, String> {
    let header = read(HEADER);
    let functions = header.split("\nuint8_t fairleadow_").skip(1).zip(header.split("\nuint8_t fairleadow_"));
    functions
        .map(|(declared, before)| {
            let remark = before.rsplit("/* ").next().expect("a remark");
            let words: Vec<&str> = remark.split_whitespace().filter(|word| *word != "*").collect();
            (declared.split('(').next().expect("a name").to_owned(), words.join(" "))
        })
        .collect()
}

#[test]
fn the_header_says_of_each_function_what_it_tries_and_counts() {
    let (tried, mut remarks) = (tried(), remarks());
    assert!(remarks.remove("meaning").is_some_and(|remark| remark.contains("Refuses nothing")));
    assert_eq!(tried["sum"].0, "nothing");
    let refusing: BTreeSet<&String> = tried.keys().filter(|call| *call != "sum").collect();
    assert_eq!(remarks.keys().collect::<BTreeSet<_>>(), refusing);
    for (call, remark) in remarks {
        let (tries, counts) = &tried[&call];
        let words = format!("Tries {tries}; counts {}", counts.split(',').next().expect("a word"));
        assert!(remark.contains(&words), "{call}: {words}\n{remark}");
    }
}

#[test]
fn the_controllers_page_has_each_refusal_of_its_calls() {
    let tried = tried();
    let mut told: BTreeMap<String, BTreeSet<u8>> = BTreeMap::new();
    for cells in rows(&read("controller/README.md"), "| Call | Number |") {
        assert!(told
            .entry(cells[0].clone())
            .or_default()
            .is_disjoint(&numbers(&cells[1]).into_iter().collect()));
        told.entry(cells[0].clone()).or_default().extend(numbers(&cells[1]));
    }
    assert!(told.len() >= 6);
    for (call, told) in told {
        assert_eq!(told, numbers(&tried[&call].0).into_iter().collect(), "{call}");
    }
}

/// Where a page says of a refusal that it is tried after another or before it, each call that tries both does so.
#[test]
fn the_pages_say_in_which_order_refusals_are_tried() {
    let mut said = 0;
    for (page, start) in [(BENCH, "| Number | Shown as |"), (REFERENCE, "| Number | Refused is |")] {
        for cells in rows(&read(page), start) {
            let number: u8 = cells[0].parse().expect("a number");
            let text = cells.join(" ");
            for (word, later) in [("after ", true), ("before ", false)] {
                for rest in text.split(word).skip(1) {
                    let digits: String = rest.chars().take_while(char::is_ascii_digit).collect();
                    let Ok(other) = digits.parse::<u8>() else { continue };
                    said += 1;
                    for (call, (tries, _)) in tried() {
                        let place = |wanted| numbers(&tries).iter().position(|tried| *tried == wanted);
                        if let (Some(at), Some(other_at)) = (place(number), place(other)) {
                            assert_eq!(at > other_at, later, "{page}, {number}: {call}");
                        }
                    }
                }
            }
        }
    }
    assert!(said > 15, "{said}");
}

//! The command why: what made a tick go where it went, and each tick of which nothing of the kind can be told.

mod shared;

use std::collections::BTreeMap;

use comparison::generate::{charts, images, runs, Random};
use office::subject::Subject;
use office::why::{asked, told, Asked};
use reference::frames::text_of;
use reference::{Library, Reference, State};
use shared::sheets::{edited, IMAGE};
use shared::{example, file, run, Ran};

/// The words of docs/CHARTS.md: a block without a bore and one with a bore.
const BLOCKS: &str = "0,0,0,0,0,0,0,0,8,0,0,0";
const BORE: &str = include_str!("../../../examples/bore.image");

fn why(path: &str, words: &str, rest: &[&str]) -> Ran {
    run(&[&["why", path, "--words", words], rest].concat())
}

/// What is printed of a tick, without the file.
fn printed(path: &str, words: &str, rest: &[&str]) -> String {
    let ran = why(path, words, rest);
    assert_eq!((ran.status, ran.said.as_str()), (0, ""), "{path}");
    ran.printed.split_once(": ").expect("the file before it").1.to_string()
}

/// The first line that is said of a tick with this refusal, without the file, and nothing is printed.
fn refused(path: &str, words: &str, rest: &[&str], number: u8) -> String {
    let Ran { printed, said, status } = why(path, words, rest);
    assert_eq!((status, printed.as_str()), (1, ""), "{said}");
    assert!(said.contains(&format!("\n  refusal {number}: ")) && said.contains("\n  look for: "), "{said}");
    said.strip_prefix(&format!("{path}: ")).expect("the file").lines().next().expect("a line").to_string()
}

fn written(name: &str, text: &str) -> String {
    file(name, text.as_bytes()).to_string_lossy().into_owned()
}

#[test]
fn a_condition_is_told_with_its_value_and_its_name() {
    let chart = example("bore.txt");
    let ran = why(&chart, BLOCKS, &["--tick", "8"]);
    assert_eq!((ran.status, ran.said.as_str()), (0, ""));
    let expected = "\
bore.txt: tick 8, word 0x0008, plain
it left node lower of bore_test (label 4) and went to node yes of bore_test (label 6)
by row 4 of the image's rows, counted from 0
what decided:
  condition 3 was 1 (bore)
";
    assert_eq!(ran.printed, expected);
    assert!(
        printed(&chart, BLOCKS, &["--tick", "2"]).ends_with("what decided:\n  condition 3 was 0 (bore)\n")
    );
}

#[test]
fn chart_lines_have_numbers_and_an_image_has_labels() {
    let expected = "\
tick 8, word 0x0008, plain
it left node n5 of s2 (label 4) and went to node n8 of s2 (label 6)
by row 4 of the image's rows, counted from 0
what decided:
  condition 3 was 1
";
    assert_eq!(printed(&example("bore.chart"), BLOCKS, &["--tick", "8"]), expected);
    let labels = "it left label 4 of scheme 2 and went to label 6 of scheme 2";
    let nodes = "it left node n5 of s2 (label 4) and went to node n8 of s2 (label 6)";
    assert_eq!(printed(&example("bore.image"), BLOCKS, &["--tick", "8"]), expected.replace(nodes, labels));
}

#[test]
fn without_a_number_it_is_the_last_tick() {
    let chart = example("bore.txt");
    assert_eq!(printed(&chart, "0,0,8", &[]), printed(&chart, "0,0,8,0", &["--tick", "2"]));
    assert_eq!(
        printed(&chart, "8", &["--ticks", "9"]),
        printed(&chart, "8", &["--ticks", "20", "--tick", "8"])
    );
    let ran = run(&["why", &chart]);
    assert_eq!(ran.printed, run(&["why", &chart, "--words", "random:1", "--tick", "63"]).printed);
}

/// The rows are those of the label beneath, and a function's are chosen by the result of the scheme that it called.
#[test]
fn a_return_goes_on_from_the_label_beneath() {
    let expected = "\
tick 10, word 0x0000, return
it returned from node end of bore_test (label 1) to node test (function) of drilling (label 2) and went on to node end of \
drilling (label 0)
by row 1 of the image's rows, counted from 0
what decided:
  the result of scheme 2 was 1 (bore_test)
";
    assert_eq!(printed(&example("bore.txt"), BLOCKS, &["--tick", "10"]), expected);
    let expected = "\
tick 4, word 0x0000, return
it returned from label 1 (End) of scheme 2 to label 2 of scheme 1 and went on to label 3 of scheme 1
by row 0 of the image's rows, counted from 0
what decided:
  the result of scheme 2 was 0
";
    assert_eq!(printed(&example("bore.image"), BLOCKS, &["--tick", "4"]), expected);
    let expected = "\
tick 5, word 0x0000, return
it returned from node n5 (End) of s2 (label 1) to node n6 of s2 (label 4) and went on to node n5 (End) of s2 (label 1)
by row 3 of the image's rows, counted from 0
nothing decided: from here every word takes this row
";
    assert_eq!(printed(&example("paper.chart"), "0,0,1,0,0,0", &[]), expected);
    let expected = "\
what decided:
  condition 4 was 1 (end_of_travel)
";
    assert!(printed(&example("finishing.txt"), "0,2,2,2,16", &[]).ends_with(expected));
}

const LOOSE: &str = "\
condition 1 knot
condition 5 wood
scheme 1
      begin -> feel
feel: do y0 -> ask
ask:  if wood then more else end
more: if knot then cut else end
cut:  do y1 -> end
      end
";

/// The row asks for wood alone; the row with a knot too is contradicted by the knot first, which has the lower number.
#[test]
fn conditions_of_other_rows_stand_apart() {
    let path = written("loose.txt", LOOSE);
    let expected = "\
by row 0 of the image's rows, counted from 0
what decided:
  condition 5 was 0 (wood)
what ruled out other rows:
  condition 1 was 0 (knot)
";
    assert!(printed(&path, "0,0", &[]).ends_with(expected));
    assert!(printed(&path, "0,2", &[]).ends_with("what ruled out other rows:\n  condition 1 was 1 (knot)\n"));
    let both = "what decided:\n  condition 1 was 1 (knot)\n  condition 5 was 1 (wood)\n";
    assert!(printed(&path, "0,34", &[]).ends_with(both));
}

/// With wood, edge and knot both special rows match: the edge's loses, and its condition 7 is not told.
#[test]
fn a_row_that_loses_adds_nothing() {
    let path = example("patched/roughing.image");
    let expected = "\
tick 2, word 0x00C4, plain
it left label 4 of scheme 2 and went to label 6 of scheme 2
by row 5 of the image's rows, counted from 0
what decided:
  condition 2 was 1
  condition 6 was 1
";
    assert_eq!(printed(&path, "0,0,0xC4", &[]), expected);
    let expected = "\
by row 3 of the image's rows, counted from 0
what decided:
  condition 2 was 1
what ruled out other rows:
  condition 6 was 0
  condition 7 was 0
";
    assert!(printed(&path, "0,0,4", &[]).ends_with(expected));
}

/// Rows of a function's that ask for no result: another row asks for it, or none does.
#[test]
fn a_result_that_the_row_does_not_ask_for() {
    let one = edited(BORE, 11, 13, "02");
    let expected = "\
by row 0 of the image's rows, counted from 0
the row asks for nothing
what ruled out other rows:
  the result of scheme 2 was 0
";
    assert!(printed(&written("one_result.image", &one), BLOCKS, &["--tick", "4"]).ends_with(expected));
    let none = edited(&one, 12, 13, "02");
    let expected = "\
by row 1 of the image's rows, counted from 0
nothing decided: from here every word takes this row
the result of scheme 2 was 0, which did not matter
";
    assert!(printed(&written("no_result.image", &none), BLOCKS, &["--tick", "4"]).ends_with(expected));
}

#[test]
fn ticks_without_a_row_are_told_by_their_kind() {
    let (bore, full, image) = (example("bore.txt"), example("full_stack.txt"), example("bore.image"));
    let words = "0,0,4,4,4,0,0,0";
    let test = "node test (function) of drilling (label 2)";
    assert_eq!(
        refused(&bore, BLOCKS, &["--tick", "6"], 21),
        format!("tick 6, word 0x0000: a home tick takes no row; it left node end of drilling (label 0) and went to {test}")
    );
    assert_eq!(
        refused(&bore, BLOCKS, &["--tick", "7"], 21),
        format!(
            "tick 7, word 0x0000: a call takes no row; {test} called scheme 2 (bore_test), which starts at node lower of \
             bore_test (label 4)"
        )
    );
    assert_eq!(
        refused(&image, BLOCKS, &["--tick", "7"], 21),
        "tick 7, word 0x0000: a call takes no row; label 2 of scheme 1 called scheme 2, which starts at label 4 of scheme 2"
    );
    assert_eq!(
        refused(&full, words, &["--places", "2", "--tick", "3"], 21),
        "tick 3, word 0x0004: a drop of 2 open schemes takes no row; node cut of roughing (label 5) called scheme 2 \
         (roughing) and found the stack full, and the handler starts at node back of drawing_back (label 7)"
    );
    assert_eq!(
        refused(&full, words, &["--places", "2", "--tick", "6"], 21),
        "tick 6, word 0x0000: the return of a handler with nothing beneath it takes no row; it left node end of drawing_back \
         (label 1) and went to node end of shaping (label 0)"
    );
    assert_eq!(
        refused(&example("full_stack.image"), words, &["--places", "2", "--tick", "6"], 21),
        "tick 6, word 0x0000: the return of a handler with nothing beneath it takes no row; it left label 1 (End) of scheme 3 \
         and went to label 0 (End) of scheme 1"
    );
}

/// The refused call is the last tick that can be asked about.
#[test]
fn a_call_that_finds_the_stack_full() {
    let (path, words) = (example("paper.chart"), "0,0,1,0,0,0,0,0");
    let full = "tick 3, word 0x0000: a call takes no row; node n6 of s2 (label 4) calls scheme 2, finds the stack full and goes \
                nowhere (refusal 17)";
    assert_eq!(refused(&path, words, &["--places", "2"], 21), full);
    assert_eq!(refused(&path, words, &["--places", "2", "--tick", "3"], 21), full);
    let told = "tick 4 is not reached: after 3 ticks a call finds the stack full";
    assert_eq!(refused(&path, words, &["--places", "2", "--tick", "4"], 17), told);
}

#[test]
fn a_label_whose_rows_do_not_match() {
    let path = written("less.image", &edited(&IMAGE.replace("12030001000102040000E3\n", ""), 1, 9, "03"));
    let told = "tick 2, word 0x0001: no row of label 3 of scheme 2 matches";
    assert_eq!(refused(&path, "0,0,1,0", &[], 18), told);
    let told = "tick 3 is not reached: after 2 ticks no row of the label matches the word";
    assert_eq!(refused(&path, "0,0,1,0", &["--tick", "3"], 18), told);
    assert!(printed(&path, "0,0,0", &[]).ends_with("what decided:\n  condition 0 was 0\n"));
    let last = IMAGE.lines().last().expect("a row");
    let path = written("no_return.image", &edited(&IMAGE.replace(&format!("{last}\n"), ""), 1, 9, "03"));
    let told = "tick 5, word 0x0000: no row of label 4 of scheme 2 matches";
    assert_eq!(refused(&path, "0,0,1,0,0,0", &[], 18), told);
}

#[test]
fn refusals_of_the_library_are_told() {
    let damaged = written("damaged.image", &edited(IMAGE, 1, 5, "00"));
    assert!(refused(&damaged, "0", &[], 11).starts_with("line 1, column 5: the highest label is 00; "));
    for path in [example("paper.image"), example("paper.txt")] {
        let told = "a stack of 33 places is asked for";
        assert_eq!(refused(&path, "0", &["--places", "33"], 14), told);
    }
    let sum =
        written("sum.chart", &std::fs::read_to_string(example("paper.chart")).unwrap().replace("F8", "F9"));
    assert_eq!(refused(&sum, "0", &[], 3), "line 2, column 21: the sum should be F8, not F9");
    let ran = run(&["why", "no/such.image"]);
    assert_eq!((ran.status, ran.said.as_str()), (1, "no/such.image: there is no such file\n"));
}

/// The tick is that of the run with its swaps: the scheme that serves is told.
#[test]
fn a_tick_after_a_swap_is_that_of_the_scheme_that_serves() {
    let words = "0,0,4,0,0,0,0,0,0,4,4,0,0,0,0";
    let swapped = printed(&example("swapped.txt"), words, &["--swap", "3:2=3", "--tick", "10"]);
    assert!(
        swapped.contains("it left node lift of finer (label 7) and went to node touch of finer (label 6)"),
        "{swapped}"
    );
    let before = printed(&example("swapped.txt"), words, &["--swap", "3:2=3", "--tick", "3"]);
    assert!(before.contains("it left node cut of roughing"), "{before}");
    assert_eq!(
        refused(&example("swapped.txt"), words, &["--swap", "3:2=3", "--tick", "8"], 21),
        "tick 8, word 0x0000: a call takes no row; node block of blocks (label 2) called scheme 2 (roughing), served by scheme 3 \
         (finer), which starts at node touch of finer (label 6)"
    );
    let returned = printed(&example("swapped.image"), words, &["--swap", "3:2=3", "--tick", "13"]);
    assert!(
        returned.contains("it returned from label 1 (End) of scheme 3 to label 2 of scheme 1"),
        "{returned}"
    );
}

#[test]
fn wrong_arguments_get_the_usage() {
    let chart = example("bore.txt");
    let usage =
        "\nusage: fairleadow why CHART [--places N] [--words WORDS] [--ticks N] [--swap SWAPS] [--scenario FILE] [--tick N]\n        [--names CHART] [--format FORMAT]\n";
    for (rest, told) in [
        (
            vec!["--words", BLOCKS, "--tick", "12"],
            "there is no tick 12: the words make ticks 0 to 11 (--ticks asks for more)",
        ),
        (vec!["--tick", "64"], "there is no tick 64: the words make ticks 0 to 63 (--ticks asks for more)"),
        (vec!["--tick", "last"], "--tick takes a number, not last"),
        (vec!["--tick", "-1"], "--tick takes a number, not -1"),
        (vec!["--tick"], "--tick needs a value"),
        (vec!["--tick", "1", "--tick", "2"], "--tick is given twice"),
        (vec!["--ticks", "0"], "--ticks takes 1 to 100000"),
        (vec!["--svg"], "no option --svg"),
    ] {
        let ran = run(&[&["why", chart.as_str()], &rest[..]].concat());
        assert_eq!((ran.status, ran.printed, ran.said), (2, String::new(), format!("{told}{usage}")));
    }
    let ran = run(&["why", "--help"]);
    assert_eq!((ran.status, ran.said.as_str()), (0, ""));
    assert!(
        ran.printed.starts_with(usage.trim_start()) && ran.printed.contains("\n  --tick N "),
        "{}",
        ran.printed
    );
}

/// The conditions that are told, as a mask, and as a word their values.
fn conditions(told: &str) -> (u16, u16) {
    let each = told.lines().filter_map(|line| line.strip_prefix("  condition ")?.split_once(" was "));
    each.fold((0, 0), |(mask, word), (number, value)| {
        let number: u16 = number.parse().expect("a number");
        (mask | 1 << number, word | u16::from(value.starts_with('1')) << number)
    })
}

/// What is said of some ticks.
const SAYINGS: [&str; 9] = [
    "what decided:",
    "what ruled out other rows:",
    "the row asks for nothing",
    "nothing decided: ",
    "the result of scheme ",
    "which did not matter",
    "it returned from ",
    "takes no row; ",
    "no row of label ",
];

/// What is told of a tick is what the reference makes of it.
fn held(subject: &Subject, asked: &Asked) -> String {
    let cause = Reference.cause(&subject.image.text, &asked.before, asked.word);
    let words = match told(subject, asked) {
        Ok(words) => words,
        Err(problem) => {
            let refusal = problem.refusal.expect("a number");
            assert_eq!((Err(refusal), refusal.frame()), (cause, None), "{problem}");
            return problem.words;
        }
    };
    let cause = cause.expect("as the library has it");
    assert!(words.contains(&format!("\nby row {} of the image's rows", cause.row)), "{words}");
    assert_eq!(conditions(&words), (cause.mask, cause.mask & asked.word), "{words}");
    let result = words.split_once("the result of scheme ").and_then(|(_, rest)| rest.split_once(" was "));
    let result = result.map_or(2, |(_, value)| value.as_bytes()[0] - b'0');
    assert_eq!(result, cause.bit, "{words}");
    if words.contains("which did not matter") {
        let results = asked.before.results.map(|result| !result);
        let other = Reference.cause(&subject.image.text, &State { results, ..asked.before }, asked.word);
        assert_eq!(other.map(|other| other.row), Ok(cause.row), "{words}");
    }
    words
}

#[test]
fn random_charts_and_images_are_told_as_the_reference_has_them() {
    let mut met = BTreeMap::new();
    for seed in 0..6_000 {
        let random = &mut Random::new(seed);
        let text = match seed % 3 {
            0 => text_of(&charts::chart(random)),
            1 => text_of(&images::accepted(random).frames()),
            _ => text_of(&images::small(random).frames()),
        };
        let Ok(subject) = Subject::read(text) else { continue };
        let words = runs::words(random, 24);
        for tick in 0..words.len() {
            let said = match asked(&subject, 1 + random.below(4), &words, &[], Some(tick)) {
                Ok(asked) => held(&subject, &asked),
                Err(problem) => problem.words,
            };
            assert!(said.starts_with(&format!("tick {tick}, word ")) || said.contains(" is not reached: "));
            for saying in SAYINGS {
                *met.entry(saying).or_insert(0) += usize::from(said.contains(saying));
            }
        }
    }
    println!("{met:?}");
    assert!(met.values().all(|count| *count >= 100), "{met:?}");
}

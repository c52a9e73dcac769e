//! The command diff: two images, two charts, a chart and an image, two traces, and what does not go together.

mod shared;

use std::fs;

use office::diff::traces::{differences, Kept};
use shared::{example, file, run, Ran};

fn read(name: &str) -> String {
    fs::read_to_string(example(name)).expect("an example")
}

fn written(name: &str, text: &str) -> String {
    file(name, text.as_bytes()).to_string_lossy().into_owned()
}

/// What is told, and that both files are said to differ.
fn differ(ran: &Ran, names: &str) -> String {
    assert_eq!((ran.status, ran.said.as_str()), (1, format!("{names} differ\n").as_str()), "{}", ran.printed);
    ran.printed.clone()
}

#[test]
fn what_is_the_same_is_told_with_status_0() {
    for (one, other, told) in [
        ("bore.image", "bore.image", "an image of 2 schemes, 7 labels and 7 rows"),
        ("bore.txt", "bore.image", "an image of 2 schemes, 7 labels and 7 rows"),
        ("bore.image", "bore.chart", "an image of 2 schemes, 7 labels and 7 rows"),
        ("bore.txt", "bore.chart", "10 nodes"),
        (
            "full_stack.image",
            "full_stack.txt",
            "an image of 3 schemes, 8 labels and 8 rows; scheme 3 is the handler",
        ),
        ("bore.trace", "bore.trace", "64 ticks"),
    ] {
        let ran = run(&["diff", &example(one), &example(other)]);
        assert_eq!(
            (ran.status, ran.printed, ran.said),
            (0, format!("the same: {told}\n"), String::new()),
            "{one} {other}"
        );
    }
    let small = written("small.image", &read("bore.image").to_lowercase());
    assert_eq!(run(&["diff", &small, &example("bore.image")]).status, 0);
}

#[test]
fn images_are_told_by_labels_and_words() {
    let (plain, patched) = (example("roughing.image"), example("patched/roughing.image"));
    let told = differ(&run(&["diff", &plain, &patched]), &format!("{plain} and {patched}"));
    let expected = "\
label 4 of scheme 2 goes elsewhere by 24,576 of 65,536 words:
  when x2 and x6: to 6, not 5
  when x2 and not x6 and x7: to end, not 5
";
    assert_eq!(told, expected);
    // the chart gives the names, whichever of the two it is, and so does another chart file
    let named = expected
        .replace("scheme 2", "scheme 2 (roughing)")
        .replace("x2", "wood")
        .replace("to 6, not 5", "to retract, not cut");
    let named = named.replace("end, not 5", "end, not cut");
    assert_eq!(
        differ(&run(&["diff", &example("roughing.txt"), &patched]), "roughing.txt and roughing.image"),
        named
    );
    let ran = run(&["diff", &plain, &patched, "--names", &example("roughing.txt")]);
    assert_eq!(ran.printed, named);
    let back = differ(&run(&["diff", &patched, &example("roughing.txt")]), "roughing.image and roughing.txt");
    assert!(back.contains("  when wood and x6: to cut, not retract\n"), "{back}");
    let told = differ(
        &run(&["diff", &example("branches.image"), &example("branches.smaller")]),
        "branches.image and branches.smaller",
    );
    assert!(told.contains("label 8 of scheme 1 is there no more: do nothing\n"), "{told}");
    let told = differ(
        &run(&["diff", &example("bore.image"), &example("paper.image")]),
        "bore.image and paper.image",
    );
    assert!(told.contains("label 2: do y0; call s2, not call s2, read its result\n"), "{told}");
}

#[test]
fn charts_are_told_by_their_nodes() {
    let bore = read("bore.txt");
    for (from, to, told) in [
        ("then yes else no\n", "then no else yes\n", "node look of bore_test says 'if bore then no else yes', not 'if bore then yes else no'\n"),
        ("do drill ->", "do drill, probe_down ->", "node hole of drilling says 'do drill, probe_down -> end', not 'do drill -> end'\n"),
        ("output 4 drill", "output 5 drill", "output 4 is named y4, not drill\noutput 5 is named drill, not y5\nnode hole of drilling says 'do drill -> end', not 'do drill -> end'\n"),
        ("condition 3 bore\n", "condition 3 hollow\n", "condition 3 is named hollow, not bore\nthe image is the same\n"),
        ("write 1 -> end\n", "write 1 -> more\nmore:  do drill -> end\n", "node yes of bore_test says 'write 1 -> more', not 'write 1 -> end'\nnode more of bore_test is new: 'do drill -> end'\n"),
        ("", "# only a comment\n", "the same: 10 nodes\n"),
        ("no:    write 0 -> end\nyes:   write 1 -> end\n", "yes:   write 1 -> end\nno:    write 0 -> end\n", "the nodes stand in another order\n"),
    ] {
        let text = if from.is_empty() { to.to_string() + &bore } else { bore.replace(from, to) };
        let text = text.replace("if hollow", "if bore").replace("if bore", if to.contains("hollow") { "if hollow" } else { "if bore" });
        let other = written("other.txt", &text);
        let ran = run(&["diff", &example("bore.txt"), &other]);
        assert_eq!((ran.printed.as_str(), ran.status), (told, i32::from(!told.starts_with("the same"))), "{to}");
    }
    // without names it goes by the numbers of the nodes
    let other = written(
        "other.chart",
        &read("bore.chart").replace("02010003000000000010EA", "02010003000000000030CA"),
    );
    let told = differ(&run(&["diff", &example("bore.txt"), &other]), "bore.txt and other.chart");
    assert_eq!(told, "node n2 of s1 says 'do y4, y5 -> n3', not 'do drill -> end'\n");
}

fn traced(name: &str, more: &[&str]) -> String {
    run(&[&["trace", &example(name)], more].concat()).printed
}

#[test]
fn traces_are_told_by_the_first_tick_that_differs() {
    let words = |words: &str| traced("bore.txt", &["--words", words]);
    let one = written("one.trace", &words("0,0,0,0,0,0,0,0,8,0,0,0"));
    let told = |other: &str| {
        let other = written("two.trace", other);
        differ(&run(&["diff", &one, &other]), "one.trace and two.trace")
    };
    assert_eq!(
        told(&words("0,0,0,0,0,0,0,0,0,0,0,0")),
        "tick 8 is the first that differs\n  word: 0x0008 in one.trace, 0x0000 in two.trace\n  conditions at 1: bore in one.trace, - in \
         two.trace\n  why: they are given other words\n"
    );
    let swapped = traced("bore.txt", &["--words", "0,0,0,0,0,0,0,0,8,0,0,0"]).replace(
        "   3  0x0000  -                bore_test  no ",
        "   3  0x0000  -                bore_test  yes",
    );
    let told_of = told(&swapped);
    assert!(
        told_of.ends_with(
            "  why: in tick 2 both stand at lower of bore_test with word 0x0000; one.trace goes on to no, and two.trace to yes, so what leads \
             on from there is not the same in the two\n"
        ),
        "{told_of}"
    );
    assert_eq!(
        told(&words("0,0,0")),
        "the first 3 ticks are the same\n  one.trace goes on: tick 3 is at no of bore_test\n  two.trace ends there\n"
    );
    let full = |places: &str| traced("full_stack.txt", &["--words", "0,0,4,4,4,0,0,0", "--places", places]);
    let (two, many) = (written("2.trace", &full("2")), written("32.trace", &full("32")));
    let told = differ(&run(&["diff", &two, &many]), "2.trace and 32.trace");
    assert_eq!(
        told,
        "tick 3 is the first that differs\n  what happens: drop of 2, start of drawing_back in 2.trace, call of roughing in 32.trace\n  why: \
         2.trace has a stack of 2 places, and 32.trace of 32 places\n"
    );
    let refused = |places: &str| traced("roughing.txt", &["--words", "0,0,4,4,4,0", "--places", places]);
    let (two, many) = (written("2.trace", &refused("2")), written("32.trace", &refused("32")));
    let told = differ(&run(&["diff", &two, &many]), "2.trace and 32.trace");
    assert!(told.starts_with("the first 3 ticks are the same\n  2.trace is refused then: tick 3, word 0x0004, node cut of roughing: the call"), "{told}");
    // kept with Windows line ends it is the same trace
    let dos = written("dos.trace", &full("32").replace('\n', "\r\n"));
    assert_eq!(run(&["diff", &many, &dos]).status, 1);
    let many = written("32.trace", &full("32"));
    assert_eq!(run(&["diff", &many, &dos]).printed, "the same: 8 ticks\n");
}

/// A trace of an image with names is that of its chart.
#[test]
fn a_trace_of_an_image_goes_by_its_nodes() {
    let words = ["--words", "0,0,0,0,0,0,0,0,8,0,0,0"];
    let chart = written("of_chart.trace", &traced("bore.txt", &words));
    let names = example("bore.txt");
    let named =
        written("of_image.trace", &traced("bore.image", &[&words[..], &["--names", &names]].concat()));
    let plain = written("plain.trace", &traced("bore.image", &words));
    for (one, other) in [(&chart, &named), (&named, &chart), (&plain, &plain)] {
        assert_eq!(run(&["diff", one, other]).printed, "the same: 12 ticks\n");
    }
    for (one, other) in [(&chart, &plain), (&plain, &chart)] {
        let ran = run(&["diff", one, other]);
        assert_eq!((ran.status, ran.printed.as_str()), (1, ""));
        let told =
            "plain.trace: this is a trace of an image without names, and the other is one of a chart\n";
        assert!(ran.said.contains(told), "{}", ran.said);
    }
}

/// A trace with any byte changed is told, or is the same; and one whose lines are lost has a place.
#[test]
fn a_damaged_trace_is_told_with_its_place() {
    let text = traced("bore.txt", &["--words", "0,0,0,8"]);
    let whole = Kept::read(text.as_bytes()).expect("a trace");
    let mut told = 0;
    for (at, byte) in (0..text.len()).flat_map(|at| [b' ', b'\n', b'x', b'\r', 0xFF].map(|byte| (at, byte))) {
        let mut damaged = text.clone().into_bytes();
        damaged[at] = byte;
        match Kept::read(&damaged) {
            Ok(kept) => drop(differences(&whole, &kept, ["one", "two"])),
            Err(problem) => {
                assert!(problem.line.is_some() && problem.words.starts_with("line "), "{problem}");
                told += 1;
            }
        }
    }
    assert!(told > 100, "{told}");
    let lost: String =
        text.lines().filter(|line| !line.starts_with("   1")).map(|line| format!("{line}\n")).collect();
    let problem = Kept::read(lost.as_bytes()).expect_err("a line is lost");
    assert_eq!(problem.words, "line 5: tick 1 belongs here");
}

#[test]
fn what_does_not_go_together_is_named() {
    let [image, chart, trace] = ["bore.image", "bore.txt", "bore.trace"].map(example);
    let empty = written("empty", "");
    for (one, other, more, told) in [
        (&trace, &chart, vec![], "bore.txt: this is a chart, and the other file is a trace\n"),
        (&image, &trace, vec![], "bore.image: this is an image, and the other file is a trace\n"),
        (
            &image,
            &chart,
            vec!["--names", chart.as_str()],
            "bore.txt: this is a chart; --names goes with two images\n",
        ),
        (
            &trace,
            &trace,
            vec!["--names", chart.as_str()],
            "bore.trace: this is a trace; --names goes with two images\n",
        ),
        (&image, &empty, vec![], "empty: the file is empty\n"),
        (&example(""), &image, vec![], "this is a directory, not a file\n"),
        (&image, &example("paper.prices"), vec![], "paper.prices: there is no such file\n"),
    ] {
        let ran = run(&[&["diff", one, other], &more[..]].concat());
        assert_eq!((ran.status, ran.printed.as_str()), (1, ""), "{told}");
        assert!(ran.said.contains(told), "{}", ran.said);
    }
    let dos = written("dos.image", &read("bore.image").replace('\n', "\r\n"));
    let ran = run(&["diff", &image, &dos]);
    assert!(
        ran.status == 1 && ran.said.contains("dos.image: line 1 ends with a carriage return"),
        "{}",
        ran.said
    );
    let ran = run(&["diff", &image]);
    assert!(ran.status == 2 && ran.said.starts_with("FILE is missing\n"), "{}", ran.said);
    let ran = run(&["diff", &image, &image, &image]);
    assert!(ran.status == 2 && ran.said.starts_with("two files only, and "), "{}", ran.said);
}

//! The command patch: what it writes, what is refused and where, and that nothing is written then.

mod shared;

use std::fs;

use fairleadow::{Library, Proved};
use office::image::Image;
use office::labels::listing::listing;
use office::patch::patched;
use office::plan::Plan;
use office::subject::Subject;
use shared::{example, file, run, Ran};

fn subject(name: &str) -> Subject {
    let text = fs::read(example(name)).expect("an example");
    Subject::without_names(Image::read(text).expect("an image"))
}

fn named(name: &str) -> Subject {
    let read = |name: &str| fs::read(example(name)).expect("an example");
    let chart =
        office::source::from_either(&read(&format!("{name}.txt"))).and_then(Plan::read).expect("a chart");
    let image = Image::read(read(&format!("{name}.image"))).expect("an image");
    Subject::with_names(image, chart).expect("labels of the chart")
}

fn patch(image: &str, patch: &str, more: &[&str]) -> Ran {
    // tests run side by side
    let thread = std::thread::current();
    let patch = file(&format!("{}.patch", thread.name().unwrap_or("own")), patch.as_bytes());
    run(&[&["patch", image, patch.to_str().expect("a path")], more].concat())
}

/// Why a patch is refused: its line, its column and its words.
fn refused(subject: &Subject, patch: &str) -> (Option<usize>, Option<usize>, String) {
    let problem = patched(subject, patch.as_bytes()).expect_err("a refusal");
    assert!(!problem.is_internal() && !problem.advice.is_empty() | problem.refusal.is_some(), "{problem}");
    (problem.line, problem.column, problem.words)
}

#[test]
fn the_example_is_patched_by_numbers_and_by_names() {
    let wanted = fs::read_to_string(example("patched/roughing.image")).expect("an example");
    let ran = run(&["patch", &example("roughing.image"), &example("patched/roughing.patch")]);
    assert_eq!((ran.status, ran.printed.as_str(), ran.said.as_str()), (0, wanted.as_str(), ""));
    let by_names = "at 4 when wood and x7 go to end\r\nat 4 when wood and x6 go to retract # a knot\r\n";
    let out = file("by_names.image", b"").to_string_lossy().into_owned();
    let names = example("roughing.txt");
    let ran = patch(&example("roughing.image"), by_names, &["--names", &names, "-o", &out]);
    assert_eq!((ran.status, ran.said.as_str()), (0, ""));
    assert_eq!(fs::read_to_string(out).expect("it was written"), wanted);
    let told = "roughing.image: 2 rows added; 8 rows now\n  label 4 of scheme 2 (roughing) goes elsewhere by 24,576 of 65,536 words:\n";
    assert!(ran.printed.starts_with(told), "{}", ran.printed);
}

#[test]
fn what_is_refused_is_told_by_line_and_column() {
    let bore = named("bore");
    let knots = subject("roughing.image");
    for (subject, text, line, column, words) in [
        (&knots, "at 4 when x2 go to 3\n", 1, 20, "label 3 belongs to scheme 1, and label 4 belongs to scheme 2; a row leads to a label of its own scheme, or to its End"),
        (&knots, "\n# nothing\nat 4 when x2 go to 0\n", 3, 20, "label 0 is the End of scheme 1, and label 4 belongs to scheme 2; a row leads to a label of its own scheme, or to its End"),
        (&knots, "at 2 go to 1\n", 1, 12, "label 1 is the End of every scheme but 1, and label 2 belongs to scheme 1; a row leads to a label of its own scheme, or to its End"),
        (&knots, "at 1 go to end\n", 1, 4, "label 1 is an End, and a row leaves label 2 or one above it"),
        (&knots, "at 7 go to end\n", 1, 4, "there is no label 7: the highest label is 6"),
        (&knots, "at 4 go to 7\n", 1, 12, "there is no label 7: the highest label is 6"),
        (&knots, "at 4 go to 700\n", 1, 12, "there is no label 700: the highest label is 6"),
        (&knots, "at 4 when x2 and result 1 go to 5\n", 1, 18, "label 4 calls no function, so its rows ask for no result"),
        (&knots, "at 4 when x2 and not x2 go to 5\n", 1, 22, "'x2' stands twice"),
        (&knots, "at 4 when x16 go to 5\n", 1, 11, "no condition is named 'x16'"),
        (&knots, "at four go to 5\n", 1, 4, "no label is named 'four'"),
        (&knots, "at 4 when go to 5\n", 1, 11, "no condition is named 'go'"),
        (&knots, "at 4 when x2 or x3 go to 5\n", 1, 14, "'or', where 'and' or 'go to' belongs"),
        (&knots, "at 4 x2 go to 5\n", 1, 6, "'x2', where 'when' or 'go to' belongs"),
        (&knots, "at 4 when x2 go 5\n", 1, 17, "'5', where 'to' belongs"),
        (&knots, "at 4 when x2 go to\n", 1, 19, "the line ends, where the number of a label, or its name, belongs"),
        (&knots, "at 4 when x2 go to 5 6\n", 1, 22, "'6', where the end of the line belongs"),
        (&knots, "4 when x2 go to 5\n", 1, 1, "'4', where 'at' or 'remove' belongs"),
        (&knots, "remove at 4\n", 1, 11, "there is no row 'at 4' to remove"),
        (&knots, "remove at 4 when x2 go to 5\n", 1, 21, "'go', where 'and' or the end of the line belongs"),
        (&knots, "at 4 when x2 go to 5\nat 4 when x2 go to 6\n", 2, 4, "the row 'at 4 when x2' has a line already (line 1)"),
        (&knots, "at 4 when x2 go to 5\nremove at 4 when x2\n", 2, 11, "the row 'at 4 when x2' has a line already (line 1)"),
        (&bore, "at look when bore go to yes\n", 1, 4, "no label is named 'look'"),
        (&bore, "at lower when boer go to yes\n", 1, 15, "no condition is named 'boer'; 'bore' is near to it"),
        (&bore, "at lower when bore go to hole\n", 1, 26, "label 3 (hole) belongs to scheme 1 (drilling), and label 4 (lower) belongs to scheme 2 (bore_test); a row leads to a label of its own scheme, or to its End"),
        (&bore, "at test when result 2 go to end\n", 1, 14, "no condition is named 'result'"),
        (&bore, "at test when result 1 and result 0 go to end\n", 1, 27, "'result' stands twice"),
        (&bore, "at test when bore\rat test go to end\n", 1, 18, "a carriage return within the line"),
    ] {
        let told = refused(subject, text);
        let place = format!("line {line}, column {column}: ");
        assert_eq!(told, (Some(line), Some(column), place + words), "{text}");
    }
}

/// What the library refuses with 13 is told with 13, and more rows than there may be with 11.
#[test]
fn refusals_of_the_library_are_told_with_their_rule() {
    let number = |subject: &Subject, text: &str| {
        let problem = patched(subject, text.as_bytes()).expect_err("a refusal");
        problem.refusal.expect("a number").number()
    };
    let knots = subject("roughing.image");
    for text in [
        "at 4 go to 3\n",
        "at 1 go to end\n",
        "at 4 when result 1 go to 5\n",
        "at 7 go to end\n",
        "at 4 go to 7\n",
    ] {
        assert_eq!(number(&knots, text), 13, "{text}");
    }
    let line = |word: u16| {
        let conditions: Vec<String> = (0..11)
            .map(|number| format!("{}x{number}", if word >> number & 1 == 1 { "" } else { "not " }))
            .collect();
        format!("at 4 when {} go to 5\n", conditions.join(" and "))
    };
    let many: String = (0..1_019).map(line).collect();
    let problem = patched(&knots, many.as_bytes()).expect_err("too many rows");
    assert_eq!(problem.refusal.expect("a number").number(), 11);
    assert_eq!(
        problem.words,
        "line 1019, column 4: with this row the image has 1,025 rows, and 1024 are the most"
    );
    let most: String = (0..1_018).map(line).collect();
    assert_eq!(
        patched(&knots, most.as_bytes()).expect("as many as there may be").image.rows().count(),
        1_024
    );
}

/// Nothing is written, and nothing printed, where one line is refused or a file is of another kind.
#[test]
fn a_refused_patch_writes_nothing() {
    let image = example("roughing.image");
    let kept = fs::read(example("branches.image")).expect("an example");
    let out = file("kept_by_patch.image", &kept).to_string_lossy().into_owned();
    let good = "at 4 when x2 and x6 go to 6\n";
    let (chart, folder) = (example("roughing.chart"), example(""));
    let read = |name: &str| fs::read_to_string(example(name)).expect("an example");
    let form = "\n  look for: lines such as 'at 4 when x2 and not x6 go to 5', or 'remove at 4 when x2'; # before a comment\n";
    for (text, told) in [
        (String::new(), "there is no line of a patch in it"),
        ("# nothing -> yet\n\n".to_string(), "there is no line of a patch in it"),
        (
            format!("{good}at 4 go to 3\n"),
            "line 2, column 12: label 3 belongs to scheme 1, and label 4 belongs to scheme 2",
        ),
        (read("roughing.image"), "this is an image; a patch belongs here"),
        (read("roughing.chart"), "this is a chart; a patch belongs here"),
        (read("roughing.txt"), "this is the readable notation; a patch belongs here"),
        (read("roughing.prices"), "line 2, column 1: 'spindle', where 'at' or 'remove' belongs"),
        (read("bore.trace"), "this is a trace; a patch belongs here"),
    ] {
        let ran = patch(&image, &text, &["-o", &out, "--force"]);
        assert_eq!((ran.status, ran.printed.as_str()), (1, ""), "{text}");
        assert!(ran.said.contains(&format!(".patch: {told}")), "{}", ran.said);
        assert!(ran.said.contains("refusal 13") || ran.said.ends_with(form), "{}", ran.said);
        assert_eq!(fs::read(&out).expect("it is there"), kept);
    }
    for (first, second, told) in [
        (chart.as_str(), "", "roughing.chart: this is a chart; a patch is made to an image\n"),
        (
            &example("roughing.txt"),
            "",
            "roughing.txt: this is the readable notation; a patch is made to an image\n",
        ),
        (&file("empty.image", b"").to_string_lossy(), "", "empty.image: the file is empty\n"),
        (&folder, "", "this is a directory, not a file\n"),
        (&image, &folder, "this is a directory, not a file\n"),
        (&image, "no/such.patch", "no/such.patch: there is no such file\n"),
    ] {
        let good = file("good.patch", good.as_bytes()).to_string_lossy().into_owned();
        let second = if second.is_empty() { good.as_str() } else { second };
        let ran = run(&["patch", first, second, "-o", &out, "--force"]);
        assert_eq!((ran.status, ran.printed.as_str()), (1, ""));
        assert!(ran.said.contains(told), "{}", ran.said);
        assert_eq!(fs::read(&out).expect("it is there"), kept);
    }
    let own = file("own.image", read("roughing.image").as_bytes()).to_string_lossy().into_owned();
    let patch_file = file("lost.patch", good.as_bytes()).to_string_lossy().into_owned();
    for lost in [&own, &patch_file] {
        let ran = run(&["patch", &own, &patch_file, "-o", lost, "--force"]);
        assert!(ran.status == 2 && ran.said.contains("it would be lost"), "{}", ran.said);
    }
    let ran = run(&["patch", "-", "-"]);
    assert!(
        ran.status == 2 && ran.said.starts_with("IMAGE and PATCH cannot both be standard input\n"),
        "{}",
        ran.said
    );
    let ran = run(&["patch", &own]);
    assert!(
        ran.status == 2 && ran.said.starts_with("PATCH is missing\nusage: fairleadow patch IMAGE PATCH "),
        "{}",
        ran.said
    );
}

/// A patch with any byte changed is a patch, or is told with its line.
#[test]
fn a_damaged_patch_is_told_with_its_place() {
    let subject = named("bore");
    let text =
        b"at test when result 1 and not bore go to hole # once\nremove at lower when bore\nat 6 go to end\n";
    assert!(patched(&subject, text).is_ok());
    let (mut fine, mut told) = (0, 0);
    for (at, byte) in (0..text.len()).flat_map(|at| (0..=255).map(move |byte| (at, byte))) {
        let mut damaged = text.to_vec();
        damaged[at] = byte;
        match patched(&subject, &damaged) {
            Ok(patched) => {
                assert_eq!(Proved.check_image(&patched.image.text), Ok(0));
                fine += 1;
            }
            Err(problem) => {
                assert!(
                    problem.line.is_some() && problem.column.is_some() && !problem.is_internal(),
                    "{problem}"
                );
                told += 1;
            }
        }
    }
    assert!(fine > 500 && told > 5_000, "{fine} {told}");
}

/// Lists of an image are patches that change nothing.
#[test]
fn the_rows_of_a_listing_are_lines_of_a_patch() {
    for name in
        ["bore", "branches", "finishing", "full_stack", "home", "paper", "roughing", "swapped", "two_blocks"]
    {
        for subject in [named(name), subject(&format!("{name}.image"))] {
            let rows: String = listing(&subject)
                .lines()
                .filter(|line| line.starts_with("    at "))
                .map(|line| format!("{line}\n"))
                .collect();
            let count = subject.image.rows().count();
            assert_eq!(rows.lines().count(), count, "{name}");
            if count > 0 {
                let again = patched(&subject, rows.as_bytes()).expect("rows that are there");
                assert_eq!((again.kept, again.image.text), (count, subject.image.text.clone()), "{name}");
            }
        }
    }
}

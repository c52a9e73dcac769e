//! The command trace: its table, the refusals that end it, and what it says was never taken.

mod shared;

use std::time::{Duration, Instant};

use fairleadow::{Library, Proved};
use office::chart::Node;
use office::plan::Plan;
use office::{source, trace};
use shared::{example, file, run, Ran};

fn traced(chart: &str, rest: &[&str]) -> Ran {
    let chart = example(chart);
    let mut args = vec!["trace", chart.as_str()];
    args.extend(rest);
    run(&args)
}

/// The lines of the table, without its heading.
fn rows(ran: &Ran) -> Vec<&str> {
    let table = ran.printed.lines().skip(3);
    table.take_while(|line| !line.is_empty()).collect()
}

/// The lines after the table.
fn after(ran: &Ran) -> Vec<&str> {
    ran.printed.lines().skip(4 + rows(ran).len()).collect()
}

#[test]
fn the_table_of_the_paper() {
    let ran = traced("paper.chart", &["--words", "0,0,1,0,0,0,0,0", "--places", "3"]);
    assert_eq!((ran.status, ran.said.as_str()), (0, ""));
    let expected = "\
paper.chart: 7 nodes in 2 schemes; stack of 3 places; words 0,0,1,0,0,0,0,0

tick  word    conditions at 1  scheme  node        what happens  outputs  open schemes   results at 1
   0  0x0000  -                s1      n2 (End)    home          -        1: s1          -
   1  0x0000  -                s1      n1          call of s2    y0       1: s1          -
   2  0x0001  x0               s2      n3 (Begin)  plain         -        2: s1 > s2     -
   3  0x0000  -                s2      n6          call of s2    y1       2: s1 > s2     -
   4  0x0000  -                s2      n3 (Begin)  plain         -        3: s1 > s2 x2  -
   5  0x0000  -                s2      n5 (End)    return        -        3: s1 > s2 x2  -
   6  0x0000  -                s2      n5 (End)    return        -        2: s1 > s2     -
   7  0x0000  -                s1      n2 (End)    home          -        1: s1          -

8 ticks; every node and arc was taken (7 nodes, 6 arcs)
";
    assert_eq!(ran.printed, expected);
}

#[test]
fn a_full_stack_is_told_with_the_call_that_met_it() {
    let ran = traced("paper.chart", &["--words", "0,0,1,0,0,0,0,0", "--places", "2"]);
    assert_eq!(ran.status, 1);
    assert_eq!(rows(&ran).len(), 3);
    assert_eq!(ran.said, format!("{}: ended by refusal 17 after 3 ticks\n", example("paper.chart")));
    let told = [
        "tick 3, word 0x0000, node n6 of s2: the call of s2 finds the stack full, all 2 places in use (2: s1 > s2)",
        "  refusal 17: a call needs a free place of the stack, or a handler that is not at the bottom of it",
        "  look for: a chart that calls itself, for which no number of places is enough whatever the words: more places (32 at \
         most), words by which it calls less deep, or a handler, which starts when the stack is full",
        "",
    ];
    let left = [
        "3 ticks; never taken: 2 of 7 nodes, 3 of 6 arcs",
        "  node n5 (End) of s2",
        "  node n6 of s2",
        "  arc n1 -> n2 of s1",
        "  arc n4, x0 = 0 -> n5 of s2",
        "  arc n6 -> n5 of s2",
    ];
    assert_eq!(after(&ran)[..4], told);
    assert_eq!(after(&ran)[4..], left);
}

/// The same words with a stack that is too short and with one that is not, as the examples have them.
#[test]
fn a_handler_starts_where_the_stack_is_full() {
    let words = "0,0,4,4,4,0,0,0,0,0,0,0,0,0";
    for places in ["2", "32"] {
        let ran = traced("full_stack.txt", &["--places", places, "--words", words]);
        assert_eq!((ran.status, ran.said.as_str()), (0, ""));
        let expected = example(&format!("full_stack.{places}.trace"));
        assert_eq!(ran.printed, std::fs::read_to_string(expected).expect("the example's trace"));
    }
}

/// What happens, and how many schemes are open.
fn happens_and_open(row: &str) -> (String, usize) {
    let cells: Vec<&str> = row.split("  ").map(str::trim).filter(|cell| !cell.is_empty()).collect();
    let open = cells[7].split(':').next().and_then(|count| count.parse().ok());
    (cells[5].to_string(), open.expect("a number of schemes"))
}

#[test]
fn thirty_two_places_are_full_too() {
    let ran = traced("full_stack.chart", &["--words", "4", "--ticks", "66"]);
    let rows: Vec<(String, usize)> = rows(&ran).into_iter().map(happens_and_open).collect();
    assert_eq!(ran.status, 0);
    assert_eq!(rows[61], ("call of s2".to_string(), 31));
    assert_eq!(rows[63], ("drop of 32, start of s3".to_string(), 32));
    assert_eq!(rows[64..], [("plain".to_string(), 1), ("plain".to_string(), 1)]);
}

#[test]
fn a_handler_that_calls_too_deep_is_refused() {
    let text = "scheme 1\nbegin -> a\na: call s2 -> end\nend\nscheme 2\nbegin when the stack is full -> b\n\
                b: write 1; call s2 -> end\nend\n";
    let chart = file("deep_handler.txt", text.as_bytes());
    let ran = run(&["trace", &chart.to_string_lossy(), "--places", "2", "--words", "0", "--ticks", "9"]);
    assert_eq!((ran.status, rows(&ran).len()), (1, 4));
    let seen: Vec<(String, usize)> = rows(&ran).into_iter().map(happens_and_open).collect();
    let seen: Vec<(&str, usize)> = seen.iter().map(|(happens, open)| (happens.as_str(), *open)).collect();
    assert_eq!(seen, [("home", 1), ("call of s2", 1), ("drop of 2, start of s2", 2), ("call of s2", 1)]);
    let told = "tick 4, word 0x0000, node b of s2: the call of s2 finds the stack full, all 2 places in use (2: s2 x2), with \
                the handler at the bottom";
    assert_eq!(after(&ran)[0], told);
    assert!(after(&ran)[1].starts_with("  refusal 17: "), "{}", ran.printed);
    // the drop writes 1 for its scheme and then clears it as the handler's
    assert!(rows(&ran)[2].ends_with("  -") && rows(&ran)[3].ends_with("  -"), "{}", ran.printed);
}

/// What to do about a full stack fits the chart: one that calls itself, one that does not, and one whose handler calls.
#[test]
fn the_advice_for_a_full_stack_fits_the_chart() {
    let advice = |ran: &Ran| {
        let line = ran.printed.lines().find_map(|line| line.strip_prefix("  look for: "));
        line.expect("advice").to_string()
    };
    let told = advice(&traced("roughing.txt", &["--places", "2", "--words", "4", "--ticks", "9"]));
    assert!(told.starts_with("a chart that calls itself, ") && !told.contains("fairleadow places"), "{told}");
    let told = advice(&traced("bore.chart", &["--places", "1"]));
    assert!(told.starts_with("too few places: this chart needs 2 places, "), "{told}");
    let text = "scheme 1\nbegin -> a\na: call s2 -> end\nend\nscheme 2\nbegin when the stack is full -> b\n\
                b: call s2 -> end\nend\n";
    let chart = file("handler_advice.txt", text.as_bytes());
    let told =
        advice(&run(&["trace", &chart.to_string_lossy(), "--places", "2", "--words", "0", "--ticks", "9"]));
    assert!(told.starts_with("a handler that calls deeper than the stack has places: "), "{told}");
    // a circle in a chart that has its handler already
    let said = run(&["places", &example("full_stack.txt")]).said;
    assert!(said.ends_with(", scheme drawing_back is there, the handler for the full stack\n"), "{said}");
}

#[test]
fn one_place_allows_no_call() {
    let ran = traced("paper.chart", &["--places", "1"]);
    assert_eq!((ran.status, rows(&ran).len()), (1, 1));
    let told = "node n1 of s1: the call of s2 finds the stack full, its one place in use (1: s1)";
    assert!(after(&ran)[0].starts_with("tick 1, ") && after(&ran)[0].ends_with(told), "{}", ran.printed);
}

#[test]
fn what_was_never_taken_is_listed() {
    let ran = traced("bore.chart", &["--words", "0", "--ticks", "30"]);
    assert_eq!((ran.status, rows(&ran).len()), (0, 30));
    let left = [
        "30 ticks; never taken: 1 of 10 nodes, 3 of 10 arcs",
        "  node n8 of s2",
        "  arc n1, s2 = 1 -> n3 of s1",
        "  arc n6, x3 = 1 -> n8 of s2",
        "  arc n8 -> n9 of s2",
    ];
    assert_eq!(after(&ran), left);
    let ran = traced("bore.chart", &["--words", "8", "--ticks", "30"]);
    assert_eq!(after(&ran)[0], "30 ticks; never taken: 2 of 10 nodes, 4 of 10 arcs");
}

#[test]
fn without_options_the_words_are_random_and_the_ticks_64() {
    let ran = traced("bore.chart", &[]);
    assert_eq!((ran.status, rows(&ran).len()), (0, 64));
    assert!(ran
        .printed
        .starts_with("bore.chart: 10 nodes in 2 schemes; stack of 32 places; words random:1\n"));
    assert_eq!(ran.printed, traced("bore.chart", &["--words", "random:1", "--ticks", "64"]).printed);
    assert_ne!(rows(&ran), rows(&traced("bore.chart", &["--words", "random:2"])));
    assert_eq!(after(&ran), ["64 ticks; every node and arc was taken (10 nodes, 10 arcs)"]);
    let expected = std::fs::read_to_string(example("bore.trace")).expect("the example's trace");
    assert_eq!(traced("bore.txt", &[]).printed, expected);
}

#[test]
fn counted_words_are_those_of_the_run_program() {
    for name in
        ["bore", "branches", "finishing", "full_stack", "home", "paper", "roughing", "swapped", "two_blocks"]
    {
        let ran = traced(&format!("{name}.chart"), &["--words", "count"]);
        let codes = std::fs::read_to_string(example(&format!("{name}.codes"))).expect("the example's codes");
        let happenings = ["plain", "return", "home", "call of s2"];
        let expected = codes.lines().map(|code| match code {
            "00" => "plain",
            "03" => "return",
            "04" => "home",
            "12" | "42" => "call of s2",
            other => panic!("code {other}"),
        });
        let shown = rows(&ran).into_iter().map(|row| {
            let cells: Vec<&str> = row.split("  ").filter(|cell| !cell.is_empty()).collect();
            *happenings.iter().find(|happening| **happening == cells[5].trim()).expect("what happens")
        });
        assert!(shown.eq(expected), "{name}");
    }
}

#[test]
fn the_names_of_the_notation_are_used() {
    let ran = traced("bore.txt", &["--words", "0,0,8,8,0,0,0"]);
    assert_eq!((ran.status, ran.said.as_str()), (0, ""));
    let cells = |row: &str| -> Vec<String> {
        row.split("  ").map(str::trim).filter(|cell| !cell.is_empty()).map(String::from).collect()
    };
    let expected = [
        ["0", "0x0000", "-", "drilling", "end", "home", "-", "1: drilling", "-"],
        ["1", "0x0000", "-", "drilling", "test (function)", "call of bore_test", "-", "1: drilling", "-"],
        ["2", "0x0008", "bore", "bore_test", "lower", "plain", "probe_down", "2: drilling > bore_test", "-"],
        ["3", "0x0008", "bore", "bore_test", "yes", "plain", "-", "2: drilling > bore_test", "bore_test"],
        ["4", "0x0000", "-", "bore_test", "end", "return", "-", "2: drilling > bore_test", "bore_test"],
    ];
    for (row, expected) in rows(&ran).into_iter().zip(expected) {
        assert_eq!(cells(row), expected);
    }
    assert!(after(&ran).contains(&"  arc look, bore = 0 -> no of bore_test"), "{}", ran.printed);
    // the same ticks as those of the chart's lines
    let plain = traced("bore.chart", &["--words", "0,0,8,8,0,0,0"]);
    assert!(rows(&ran).iter().map(|row| &row[..10]).eq(rows(&plain).iter().map(|row| &row[..10])));
}

/// The least time of three runs, and the masks of each: what else the machine does makes a run longer and never shorter.
fn least(run: impl Fn() -> Vec<u32>) -> (Duration, Vec<u32>) {
    let timed = |_| {
        let start = Instant::now();
        let masks = run();
        (start.elapsed(), masks)
    };
    (0..3).map(timed).min().expect("three runs")
}

/// The image is prepared once: ticks on its table take a part of what ticks on its text take, which is read and checked in each.
#[test]
fn ticks_are_made_on_a_prepared_table() {
    let node =
        |k: usize| format!("a{k}: do y0 -> {}\n", if k < 197 { format!("a{}", k + 1) } else { "end".into() });
    let text: String = (0..198).map(node).collect();
    let source = source::from_notation(&format!("scheme 1\nbegin -> a0\n{text}end\n")).expect("the notation");
    let plan = Plan::read(source).expect("a chart");
    let words = vec![0; 5_000];
    let image = &plan.image.as_ref().expect("an image").text;
    let on_table = || {
        let traced = trace::trace(&plan, 32, &words, &[]).expect("a trace");
        traced.ticks.iter().map(|tick| tick.mask).collect()
    };
    let on_text = || {
        let mut state = trace::fresh(32).expect("a state");
        let mut tick = |word: &u16| Proved.tick(image, &mut state, *word).expect("it is made");
        words.iter().map(|word| tick(word).mask).collect()
    };
    let ((table, table_masks), (text, text_masks)) = (least(on_table), least(on_text));
    assert_eq!(table_masks, text_masks);
    assert!(table * 2 < text, "{table:?} and {text:?}");
}

/// Arcs that end elsewhere than the library's state stands are told, and make no trace.
#[test]
fn arcs_that_lead_astray_are_an_internal_error() {
    let mut plan = source::load(example("bore.txt")).and_then(Plan::read).expect("an accepted chart");
    assert!(trace::trace(&plan, 32, &[0; 9], &[]).is_ok());
    for node in &mut plan.nodes {
        if let Node::Condition { next0, next1, .. } = node {
            std::mem::swap(next0, next1);
        }
    }
    let told = trace::trace(&plan, 32, &[0; 9], &[]).expect_err("another node").words;
    let start = "internal error: by word 0x0000 the arcs lead to node yes";
    assert!(told.starts_with(start) && told.ends_with("the library's state stands at another"), "{told}");
}

/// The words of a table are given to another run as they stand, and make the same table.
#[test]
fn words_of_the_table_are_read_as_they_were() {
    let ran = traced("bore.txt", &["--words", "0,16,0x10,8004,0x8004,65535"]);
    let column = |row: &str| row.split_whitespace().nth(1).expect("a word").to_string();
    let words: Vec<String> = rows(&ran).into_iter().map(column).collect();
    assert_eq!(words, ["0x0000", "0x0010", "0x0010", "0x1F44", "0x8004", "0xFFFF"]);
    assert_eq!(rows(&traced("bore.txt", &["--words", &words.join(",")])), rows(&ran));
    let lines = file("table_words.txt", words.join("\n").as_bytes());
    assert_eq!(rows(&traced("bore.txt", &["--words", &lines.to_string_lossy()])), rows(&ran));
    for (words, told) in [
        ("0010", "in the words 0010: '0010' begins with a 0: write 10, or 0x10, which is 16\n"),
        (
            "FFFF",
            "there is no file FFFF, and in the words FFFF: 'FFFF' could only be hexadecimal: write 0xFFFF\n",
        ),
    ] {
        let ran = traced("bore.txt", &["--words", words]);
        assert_eq!((ran.status, ran.printed.as_str()), (2, ""), "{words}");
        assert!(ran.said.starts_with(told), "{}", ran.said);
    }
}

#[test]
fn words_come_from_a_file() {
    let words = file("words.txt", b"# bench sheet\n0\n0\n0x1 # feeler\n0\n0\n0\n0\n0\n");
    let given = words.to_string_lossy();
    let ran = traced("paper.chart", &["--words", &given, "--places", "3"]);
    let list = traced("paper.chart", &["--words", "0,0,1,0,0,0,0,0", "--places", "3"]);
    assert_eq!((ran.status, rows(&ran)), (0, rows(&list)));
    let bad = file("bad_words.txt", b"0\n0x1FFFF\n");
    let ran = traced("paper.chart", &["--words", &bad.to_string_lossy()]);
    assert_eq!((ran.status, ran.printed.as_str()), (1, ""));
    assert_eq!(
        ran.said,
        format!("{}: line 2: '0x1FFFF' is more than 65535, the largest word\n", bad.display())
    );
    let many = file("many_words.txt", "0\n".repeat(100_001).as_bytes());
    let ran = traced("home.chart", &["--words", &many.to_string_lossy()]);
    assert_eq!((ran.status, ran.printed.as_str()), (2, ""));
    assert!(
        ran.said.starts_with("100001 words are given; --ticks takes 1 to 100000 of them\n"),
        "{}",
        ran.said
    );
    let ran = traced("home.chart", &["--words", &many.to_string_lossy(), "--ticks", "2"]);
    assert_eq!((ran.status, rows(&ran).len()), (0, 2));
}

#[test]
fn words_come_from_standard_input() {
    let chart = example("paper.chart");
    let stdin =
        || std::process::Stdio::from(std::fs::File::open(file("piped.txt", b"0\n0\n1\n")).expect("a file"));
    let ran = shared::ran(shared::program(&["trace", &chart, "--words", "-"]).stdin(stdin()));
    assert_eq!((ran.status, rows(&ran)), (0, rows(&traced("paper.chart", &["--words", "0,0,1"]))));
    let ran = shared::ran(shared::program(&["trace", "-", "--words", "-"]).stdin(stdin()));
    assert_eq!(ran.status, 2);
    assert!(ran.said.starts_with("chart and words cannot both be standard input\n"), "{}", ran.said);
}

#[test]
fn refusals_of_the_library_end_it() {
    let chart = example("paper.chart");
    let text = std::fs::read(&chart).expect("an example");
    let garbled =
        file("garbled.chart", &text.iter().map(|c| if *c == b'F' { b'g' } else { *c }).collect::<Vec<u8>>());
    let empty = file("empty.chart", b"");
    for (path, rest, number) in [
        (chart.as_str(), vec!["--places", "0"], 14),
        (chart.as_str(), vec!["--places", "33"], 14),
        (&garbled.to_string_lossy(), vec![], 2),
        (&empty.to_string_lossy(), vec![], 1),
    ] {
        let mut args = vec!["trace", path];
        args.extend(rest);
        let ran = run(&args);
        assert_eq!((ran.status, ran.printed.as_str()), (1, ""));
        assert!(ran.said.contains(&format!("\n  refusal {number}: ")), "{}", ran.said);
    }
    let ran = run(&["trace", &chart, "--places", "33"]);
    let told = "a stack of 33 places is asked for\n  refusal 14: a stack has 1 to 32 places\n";
    assert!(ran.said.starts_with(&format!("{chart}: {told}")), "{}", ran.said);
    let ran = run(&["trace", "no/such.chart"]);
    assert_eq!(ran.status, 1);
    assert_eq!(ran.said, "no/such.chart: there is no such file\n");
}

#[test]
fn wrong_arguments_get_the_usage() {
    let chart = example("paper.chart");
    for args in [
        vec!["trace"],
        vec!["trace", &chart, &chart],
        vec!["trace", &chart, "--place", "3"],
        vec!["trace", &chart, "--places"],
        vec!["trace", &chart, "--places", "many"],
        vec!["trace", &chart, "--ticks", "0"],
        vec!["trace", &chart, "--ticks", "100001"],
        vec!["trace", &chart, "--ticks", "1", "--ticks", "2"],
        vec!["trace", &chart, "--words", "0,x"],
        vec!["trace", &chart, "--words", ""],
        vec!["trace", ""],
        vec!["trace", &chart, "--words", "random:x"],
    ] {
        let ran = run(&args);
        assert_eq!((ran.status, ran.printed.as_str()), (2, ""), "{args:?}");
        assert!(ran.said.contains("\nusage: fairleadow trace CHART "), "{}", ran.said);
    }
    let ran = run(&["trace", &chart, "--words", ""]);
    assert!(ran.said.starts_with("--words is given, and nothing stands after it\n"), "{}", ran.said);
    let ran = run(&["trace", &chart, "--words", "0,x"]);
    assert!(ran.said.starts_with("in the words 0,x: no condition is named 'x'\n"), "{}", ran.said);
    let ran = run(&["trace", "--help"]);
    assert_eq!((ran.status, ran.said.as_str()), (0, ""));
    assert!(ran.printed.starts_with("usage: fairleadow trace CHART "));
}

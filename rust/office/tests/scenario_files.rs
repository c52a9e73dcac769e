//! Files of scenarios: damaged, of another kind, and given to each command that runs something.

mod shared;

use shared::called::fairleadow;
use shared::{example, file, run, Ran};

/// An example of a scenario with each byte changed, and cut after each byte: a run, or a message with a line, and nothing else.
#[test]
fn a_damaged_scenario_is_told_or_run() {
    use office::plan::Plan;
    use office::scenario::{Scenario, Vocabulary};
    let plan = office::source::load(example("bore.txt")).and_then(Plan::read).expect("an example");
    let text = std::fs::read(example("bore.scenario")).expect("an example");
    let vocabulary = Vocabulary::of(&plan);
    let (mut refused, mut read) = (0, 0);
    let mut tried = |text: &[u8]| match Scenario::read(text, &vocabulary) {
        Ok(_) => read += 1,
        Err(problem) => {
            let placed = problem.line.is_some_and(|line| problem.words.contains(&format!("line {line}")));
            assert!(placed || problem.words == "there is no step in it", "{problem}");
            refused += 1;
        }
    };
    for at in 0..text.len() {
        tried(&text[..at]);
        for byte in
            [0, b'\n', b'\r', b' ', b'#', b'*', b'-', b'x', b'9', b';', b',', 0xC3, 0xFF, text[at] ^ 0x20]
        {
            let mut text = text.clone();
            text[at] = byte;
            tried(&text);
        }
    }
    assert!(refused > 1_000 && read > 1_000, "{refused} refused, {read} read");
}

#[test]
fn a_file_that_is_none_is_told() {
    let chart = example("bore.txt");
    for (file, told) in [
        ("no/such.scenario", "there is no such file"),
        (env!("CARGO_TARGET_TMPDIR"), "this is a directory, not a file"),
    ] {
        let ran = run(&["trace", &chart, "--scenario", file]);
        assert_eq!((ran.status, ran.printed.as_str()), (1, ""));
        assert_eq!(ran.said, format!("{file}: {told}\n"));
    }
    let scenario = example("bore.scenario");
    for (more, told) in [
        (vec!["--words", "0"], "--words does not go with --scenario, which has its own words and swaps\n"),
        (vec!["--ticks", "2"], "--ticks does not go with --scenario"),
        (vec!["--swap", "0:2=2"], "--swap does not go with --scenario"),
        (vec!["--places", "many"], "--places takes a number, not many"),
    ] {
        let ran = run(&[&["trace", chart.as_str(), "--scenario", scenario.as_str()], &more[..]].concat());
        assert_eq!((ran.status, ran.printed.as_str()), (2, ""));
        assert!(ran.said.starts_with(told), "{}", ran.said);
    }
    let ran = run(&["trace", &chart, "--scenario", &scenario, "--places", "33"]);
    assert!(ran.status == 1 && ran.said.contains("refusal 14"), "{}", ran.said);
    let (status, printed, told) = fairleadow(&["trace", "-", "--scenario", "-"], b"");
    assert_eq!((status, printed.as_str()), (2, ""));
    assert!(told.starts_with("chart and scenario cannot both be standard input\n"), "{told}");
    let (status, printed, _) = fairleadow(&["trace", &chart, "--scenario", "-"], b"- * 3\n");
    assert!(status == 0 && printed.contains("; scenario standard input\n"), "{printed}");
}

/// The commands that run something take a scenario, an image with its numbers too.
#[test]
fn each_command_that_runs_takes_a_scenario() {
    let (chart, scenario) = (example("bore.txt"), example("bore.scenario"));
    let list = "-*6,bore*3,-*3";
    for (command, more) in
        [("why", vec!["--tick", "8"]), ("draw", vec!["--trace"]), ("page", vec!["-o", "-"])]
    {
        let by = |option: &str, value: &str, places: &[&str]| {
            run(&[&[command, chart.as_str(), option, value], places, &more[..]].concat())
        };
        let (one, other) = (by("--scenario", &scenario, &[]), by("--words", list, &["--places", "2"]));
        assert_eq!((one.status, one.said.as_str()), (other.status, other.said.as_str()), "{command}");
        // but for the head, where the one is named and the other
        let rest = |ran: &Ran| -> Vec<String> {
            let is_head = |line: &&str| line.contains("bore.scenario") || line.contains("-*6,bore*3,-*3");
            ran.printed.lines().filter(|line| !is_head(line)).map(String::from).collect()
        };
        assert_eq!(rest(&one), rest(&other), "{command}");
        assert!(one.printed.lines().count() == other.printed.lines().count(), "{command}");
    }
    let prices = file("bore.prices", b"y4 100\n");
    let image = file("bore.numbers", b"- * 8\nx3 until output y6 at most 9\n- * 3; expect y30\n");
    let (prices, numbers) = (prices.to_string_lossy(), image.to_string_lossy());
    let ran = run(&["bill", &example("bore.image"), "--prices", &prices, "--scenario", &numbers]);
    assert_eq!((ran.status, ran.said.as_str()), (0, ""));
    assert!(ran
        .printed
        .starts_with("bore.image: stack of 32 places; scenario bore.numbers; prices bore.prices\n"));
    assert!(ran.printed.contains("\n12 ticks, to pay: 1 cent\n"), "{}", ran.printed);
    let ran = run(&["why", &example("bore.image"), "--scenario", &numbers, "--tick", "8"]);
    assert!(ran.status == 0 && ran.printed.contains("condition 3 was 1"), "{}", ran.printed);
    let ran = run(&["why", &example("bore.image"), "--scenario", &numbers, "--tick", "12"]);
    let told = "there is no tick 12: the scenario makes ticks 0 to 11\n";
    assert!(ran.status == 2 && ran.said.starts_with(told), "{}", ran.said);
    let nodes = file("bore.nodes", b"- until node n2\n").to_string_lossy().into_owned();
    let ran = run(&["why", &example("bore.image"), "--scenario", &nodes]);
    assert!(
        ran.status == 1 && ran.said.contains("line 1, column 14: an image has no nodes\n"),
        "{}",
        ran.said
    );
    let swapped = example("swapped.scenario");
    let ran = run(&["bill", &example("swapped.txt"), "--prices", &prices, "--scenario", &swapped]);
    let told = "each part from swap to swap has its own price, rounded by itself:\n";
    assert!(ran.status == 0 && ran.printed.contains(told), "{}{}", ran.printed, ran.said);
}

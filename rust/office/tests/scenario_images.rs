//! Scenarios on images: by the names of the chart that an image was made of, and by numbers alone.

mod shared;

use std::fs;

use shared::called::fairleadow;
use shared::{example, file, run, Ran};

/// A file of this case's own, by its name.
fn own(name: &str, text: &str) -> String {
    file(name, text.as_bytes()).to_string_lossy().into_owned()
}

/// A trace of the patched image of the roughing by the names of its chart.
fn patched(name: &str, scenario: &str) -> Ran {
    let (image, chart) = (example("patched/roughing.image"), example("roughing.txt"));
    run(&["trace", &image, "--names", &chart, "--scenario", &own(name, scenario)])
}

/// Waits for nodes, codes and outputs, and swaps, come to the same ticks on an image with names and on its chart.
#[test]
fn an_image_with_names_runs_a_scenario_as_its_chart() {
    for name in ["bore", "full_stack", "swapped"] {
        let [chart, image, scenario] =
            ["txt", "image", "scenario"].map(|end| example(&format!("{name}.{end}")));
        let of_chart = run(&["trace", &chart, "--scenario", &scenario]);
        let of_image = run(&["trace", &image, "--names", &chart, "--scenario", &scenario]);
        assert_eq!([of_chart.status, of_image.status], [0, 0], "{}{}", of_chart.said, of_image.said);
        let kept = |end: &str, ran: &Ran| own(&format!("{name}.{end}.trace"), &ran.printed);
        let compared = run(&["diff", &kept("chart", &of_chart), &kept("image", &of_image)]);
        assert!(compared.status == 0 && compared.printed.starts_with("the same: "), "{}", compared.printed);
    }
}

/// The rows are the image's own: the patch leads to the node at once that the chart comes to over the cut.
#[test]
fn a_step_goes_on_until_a_node_of_the_chart() {
    let scenario =
        "- * 2\nwood + x6 until node retract at most 2; expect at last only spindle, cutter_back\n";
    let ran = patched("knot.scenario", scenario);
    assert_eq!((ran.status, ran.said.as_str()), (0, ""));
    assert!(
        ran.printed.contains("\n4 ticks; ") && !ran.printed.contains("not as the scenario"),
        "{}",
        ran.printed
    );
    let of_chart = run(&["trace", &example("roughing.txt"), "--scenario", &own("knot.scenario", scenario)]);
    let told = "line 2, column 17: the limit of 2 ticks is reached without node retract of roughing\n";
    assert!(of_chart.status == 1 && of_chart.said.ends_with(told), "{}", of_chart.said);
    let other = patched("other.scenario", "-; expect node clear\n- until node retract at most 3\n");
    assert_eq!(other.status, 1);
    let (_, told) = other.printed.split_once("\nnot as the scenario expects:\n").expect("differences");
    assert_eq!(
        told,
        "  line 1, tick 0, node end of shaping: expected node clear of shaping, and it is end of shaping\n  \
         line 2, ticks 1 to 3: the limit of 3 ticks is reached without node retract of roughing\n"
    );
}

/// Without names conditions and outputs go by their numbers, and a node is told how it could be named.
#[test]
fn an_image_without_names_runs_a_scenario_by_numbers() {
    let image = example("bore.image");
    let ran =
        run(&["trace", &image, "--scenario", &own("numbers.scenario", "- until y6\nx3; expect only y6\n")]);
    assert_eq!((ran.status, ran.said.as_str()), (0, ""));
    assert!(
        ran.printed.ends_with("  line 2, tick 3: expected only y6, and nothing is on\n"),
        "{}",
        ran.printed
    );
    for (scenario, told) in [
        ("- until node lower\n", "line 1, column 14: an image has no nodes\n"),
        ("bore\n", "line 1, column 1: no condition is named 'bore'\n"),
        ("-; expect drill\n", "line 1, column 11: no output is named 'drill'\n"),
    ] {
        let path = own("unnamed.scenario", scenario);
        let ran = run(&["trace", &image, "--scenario", &path]);
        assert_eq!((ran.status, ran.printed.as_str()), (1, ""));
        assert!(ran.said.starts_with(&format!("{path}: {told}")), "{}", ran.said);
        assert!(ran.said.contains("\n  look for: ") && ran.said.contains("--names CHART"), "{}", ran.said);
    }
}

/// What needs a chart's nodes names the image first.
#[test]
fn where_a_chart_is_run_an_image_is_named() {
    let (image, scenario) = (example("bore.image"), example("bore.scenario"));
    let ran = run(&["test", &image, &scenario]);
    assert_eq!((ran.status, ran.printed.as_str()), (1, ""));
    let told = format!("{image}: this is an image; scenarios are tested on a chart\n  look for: ");
    assert!(ran.said.starts_with(&told), "{}", ran.said);
}

/// What an image ran is saved by numbers, or by the names of its chart, and is run again to the same ticks, as expected.
#[test]
fn a_run_of_an_image_is_saved_and_run_again() {
    let path = own("of_image.scenario", "");
    for (image, chart, given) in [
        ("bore", "bore", vec!["--words", "random:7", "--ticks", "200"]),
        ("patched/roughing", "roughing", vec!["--words", "-*2,0x44*3,0x84*2,4*9,-*9"]),
        ("swapped", "swapped", vec!["--words", "count", "--swap", "3:2=3,11:2=2"]),
        ("full_stack", "full_stack", vec!["--words", "x2", "--ticks", "30", "--places", "2"]),
        ("roughing", "roughing", vec!["--words", "x2", "--ticks", "30", "--places", "3"]),
    ] {
        let (image, chart) = (example(&format!("{image}.image")), example(&format!("{chart}.txt")));
        for (names, more) in [
            (&[][..], &[][..]),
            (&[], &["--expect"]),
            (&["--names", &chart], &[]),
            (&["--names", &chart], &["--expect"]),
        ] {
            let call = [&["trace", &image], names].concat();
            let first = run(&[&call[..], &given, &["--save", &path, "--force"], more].concat());
            let again = run(&[&call[..], &["--scenario", &path]].concat());
            let table = |printed: &str| printed.lines().skip(1).map(String::from).collect::<Vec<String>>();
            assert!(table(&first.printed).len() > 10, "{}", first.said);
            assert_eq!(table(&again.printed), table(&first.printed), "{call:?}");
            assert_eq!((again.status, &again.said), (first.status, &first.said));
            let saved = fs::read_to_string(&path).expect("it was written");
            assert_eq!(saved.contains("; expect "), !more.is_empty());
            assert_eq!(saved.contains("expect node "), !more.is_empty() && !names.is_empty());
            assert_eq!(
                saved.contains(" wood") || saved.contains("\nwood"),
                !names.is_empty() && chart != example("bore.txt"),
                "{saved}"
            );
            let printed = run(&[&call[..], &given, &["--save", "-"], more].concat());
            assert_eq!((printed.status, printed.printed), (first.status, saved));
        }
    }
    // with a tick that is otherwise: what is expected of an image is held against it
    let saved = run(&["trace", &example("bore.image"), "--words", "-*4", "--save", "-", "--expect"]).printed;
    let other = own("other_mask.scenario", &saved.replacen("only y6", "only y5", 1));
    assert_ne!(fs::read_to_string(&other).expect("it was written"), saved);
    let ran = run(&["trace", &example("bore.image"), "--scenario", &other]);
    assert!(ran.status == 0 && ran.printed.contains("\nnot as the scenario expects:\n"), "{}", ran.printed);
}

/// A file that is read is not written over, whatever it is read for and with --force too.
#[test]
fn what_a_command_reads_stays_as_it_is() {
    let copy =
        |name: &str| own(&format!("read.{name}"), &fs::read_to_string(example(name)).expect("an example"));
    let [image, chart, scenario] = ["bore.image", "bore.txt", "bore.scenario"].map(copy);
    let patch = own("read.patch", "at 3 go to end\n");
    for (call, file) in [
        (vec!["page", &image, "--names", &chart, "--scenario", &scenario, "-o"], &scenario),
        (vec!["page", &image, "--names", &chart, "--scenario", &scenario, "-o"], &chart),
        (vec!["page", &chart, "--scenario", &scenario, "-o"], &scenario),
        (vec!["trace", &chart, "--scenario", &scenario, "--save"], &scenario),
        (vec!["patch", &image, &patch, "--names", &chart, "-o"], &patch),
        (vec!["patch", &image, &patch, "--names", &chart, "-o"], &chart),
        (vec!["patch", &image, &patch, "-o"], &image),
    ] {
        let before = fs::read(file).expect("it was written");
        let ran = run(&[call.as_slice(), &[file.as_str(), "--force"]].concat());
        assert_eq!((ran.status, ran.printed.as_str()), (2, ""), "{call:?}");
        assert!(
            ran.said.starts_with(&format!("{file} is read by this command: it would be lost\n")),
            "{}",
            ran.said
        );
        assert!(fs::read(file).expect("it is there") == before, "{call:?}");
    }
}

/// Whatever goes beside a chart or an image is told by its kind in the first words where it stands in the place of another file.
#[test]
fn a_file_in_the_place_of_another_is_named() {
    let [chart, image, scenario, patch, trace] =
        ["bore.txt", "bore.image", "bore.scenario", "patched/roughing.patch", "full_stack.2.trace"]
            .map(example);
    let others = [(&scenario, "a scenario"), (&patch, "a patch"), (&trace, "a trace")];
    for (file, kind) in others {
        for (call, asked) in [
            (vec!["check", file], "a chart or an image"),
            (vec!["places", file], "a chart"),
            (vec!["show", file], "a chart"),
            (vec!["trace", file], "a chart"),
            (vec!["compose", file], "the readable notation"),
            (vec!["translate", file], "a chart"),
            (vec!["trace", &image, "--names", file], "a chart"),
            (vec!["test", file, &scenario], "a chart"),
            (vec!["patch", file, &patch], "an image"),
        ] {
            let ran = run(&call);
            let told = format!("{file}: this is {kind}; {asked} is asked for here\n  look for: ");
            assert_eq!((ran.status, ran.printed.as_str()), (1, ""), "{call:?}");
            assert!(ran.said.starts_with(&told), "{call:?}: {}", ran.said);
        }
    }
    for (call, told) in [
        (["trace", &chart, "--scenario", &patch], "this looks like a patch, not like a scenario; line 2, "),
        (["trace", &chart, "--scenario", &trace], "this looks like a trace, not like a scenario; line 1, "),
        (["patch", &image, &scenario, ""], "this is a scenario; a patch belongs here\n"),
        (["patch", &image, &trace, ""], "this is a trace; a patch belongs here\n"),
    ] {
        let call: Vec<&str> = call.into_iter().filter(|word| !word.is_empty()).collect();
        let ran = run(&call);
        assert!(ran.status == 1 && ran.said.contains(&format!(": {told}")), "{call:?}: {}", ran.said);
    }
}

/// What somebody wrote, or kept, is lost with --force alone.
#[test]
fn a_patch_and_a_trace_are_not_written_over() {
    for (name, kind) in [("patched/roughing.patch", "a patch"), ("full_stack.2.trace", "a trace")] {
        let text = fs::read_to_string(example(name)).expect("an example");
        let kept = own(&format!("kept.{}", name.replace('/', ".")), &text);
        let call = ["trace", &example("bore.txt"), "--words", "0", "--save", &kept];
        let ran = run(&call);
        let told = format!("{kept} looks like {kind}, which would be lost; --force writes over it\n");
        assert!(ran.status == 2 && ran.said.starts_with(&told), "{}", ran.said);
        assert_eq!(fs::read_to_string(&kept).expect("it is there"), text);
        assert_eq!(run(&[&call[..], &["--force"]].concat()).status, 0);
    }
}

#[test]
fn standard_input_is_read_once() {
    let (image, chart) = (example("bore.image"), example("bore.txt"));
    for (call, told) in [
        (vec!["trace", &image, "--names", "-", "--scenario", "-"], "scenario and names cannot both be"),
        (vec!["trace", "-", "--names", "-"], "chart and names cannot both be"),
        (vec!["bill", &chart, "--prices", "-", "--scenario", "-"], "scenario and prices cannot both be"),
        (vec!["patch", &image, "-", "--names", "-"], "PATCH and names cannot both be"),
        (vec!["test", "-", "-"], "one file at most can be"),
    ] {
        let (status, printed, said) = fairleadow(&call, b"");
        assert_eq!((status, printed.as_str()), (2, ""));
        assert!(said.starts_with(&format!("{told} standard input\n")), "{said}");
    }
}

//! The command test: each difference, the joined coverage, the status, and the reports for programs, read back by programs.

mod shared;

use std::io::Write;
use std::process::{Command, Stdio};

use shared::{example, file, run};

/// A file of this test's own.
fn own(name: &str, text: &str) -> String {
    file(name, text.as_bytes()).to_string_lossy().into_owned()
}

/// A scenario that passes, one that differs in two ways, and one that has a name that nobody has.
fn three(test: &str) -> [String; 3] {
    [
        example("bore.scenario"),
        own(
            &format!("{test} <&> \"#1\".scenario"),
            "-; expect drill\n- * 2; expect at last not probe_down\n",
        ),
        own(&format!("{test}_faulty.scenario"), "-\nboer; expect drill\n"),
    ]
}

#[test]
fn each_difference_is_told_and_coverage_is_joined() {
    let [good, differing, faulty] = three("people");
    let chart = example("bore.txt");
    let ran = run(&["test", &chart, &good, &differing, &faulty]);
    let expected = format!(
        "\
{good}: passed, 12 ticks, 10 checks
{differing}: failed, 3 ticks, 2 checks: 2 differences
  line 1, tick 0, node end of drilling: expected drill on, and it is off
  line 2, tick 2, node lower of bore_test: expected probe_down off, and it is on
{faulty}: not run: line 2, column 1: no condition is named 'boer'; 'bore' is near to it
    boer; expect drill
    ^
  look for: the names of the chart's conditions; those without a name are x0 to x15

bore.txt: 3 scenarios, 1 passed, 1 failed, 1 not run; 15 ticks
all were taken: 10 nodes, 10 arcs and 2 function results
"
    );
    assert_eq!((ran.status, ran.printed), (1, expected));
    assert_eq!(ran.said, format!("{chart}: 2 of 3 scenarios failed\n"));
    let ran = run(&["test", &chart, &good]);
    assert_eq!((ran.status, ran.said.as_str()), (0, ""));
    // where nothing was run nothing is told of what it took
    let ran = run(&["test", &chart, &faulty]);
    assert!(
        ran.status == 1 && ran.printed.ends_with("\nbore.txt: 1 scenario, 1 not run; 0 ticks\n"),
        "{}",
        ran.printed
    );
}

/// Two scenarios take together what each takes and no more.
#[test]
fn what_no_scenario_took_is_told() {
    let chart = example("bore.txt");
    let (without, with) = (own("without.scenario", "- * 5\n"), own("with.scenario", "- * 2\nbore * 4\n"));
    let left = |scenarios: &[&str]| -> Vec<String> {
        let printed = run(&[&["test", &chart], scenarios].concat()).printed;
        let lines = printed.lines().skip_while(|line| !line.starts_with("never taken: "));
        lines.map(String::from).collect()
    };
    let without_bore = [
        "never taken: 2 of 10 nodes, 4 of 10 arcs, 1 of 2 function results",
        "  node hole of drilling",
        "  node yes of bore_test",
        "  arc test, bore_test = 1 -> end of drilling",
        "  arc hole -> end of drilling",
        "  arc look, bore = 1 -> yes of bore_test",
        "  arc yes -> end of bore_test",
        "  result 1 at function test of drilling",
    ];
    assert_eq!(left(&[&without]), without_bore);
    let with_bore = left(&[&with]);
    assert_eq!(with_bore[0], "never taken: 2 of 10 nodes, 4 of 10 arcs, 1 of 2 function results");
    assert_eq!(with_bore.last().map(String::as_str), Some("  result 0 at function test of drilling"));
    let both = [
        "never taken: 1 of 10 nodes, 1 of 10 arcs, 0 of 2 function results",
        "  node hole of drilling",
        "  arc hole -> end of drilling",
    ];
    assert_eq!(left(&[&without, &with]), both);
    // each drop, by the node that calls
    let chart = example("full_stack.txt");
    let drops = |scenarios: &[(&str, &str)]| {
        let files: Vec<String> = scenarios.iter().map(|(name, text)| own(name, text)).collect();
        let files: Vec<&str> = files.iter().map(String::as_str).collect();
        let printed = run(&[&["test", &chart], &files[..]].concat()).printed;
        let drops = printed.lines().filter(|line| line.starts_with("  drop ")).map(String::from);
        (printed.contains(" of 2 drops"), drops.collect::<Vec<String>>())
    };
    let (one, two) =
        (("one_place.scenario", "places 1\n- * 3\n"), ("two_places.scenario", "places 2\n- * 2\nwood * 3\n"));
    let all = ["  drop at start of shaping", "  drop at cut of roughing"];
    assert_eq!(drops(&[("no_drop.scenario", "- * 3\n")]), (true, all.map(String::from).to_vec()));
    assert_eq!(drops(&[one]), (true, vec![all[1].to_string()]));
    assert_eq!(drops(&[two]), (true, vec![all[0].to_string()]));
    assert_eq!(drops(&[one, two]).1, [] as [String; 0]);
}

#[test]
fn wrong_calls_and_refused_charts_are_told() {
    let (chart, scenario) = (example("bore.txt"), example("bore.scenario"));
    for (arguments, told) in [
        (vec!["test"], "a chart is missing\n"),
        (vec!["test", &chart], "a scenario is missing\n"),
        (vec!["test", &chart, ""], "the name of a file is empty\n"),
        (
            vec!["test", &chart, &scenario, "--format", "xml"],
            "--format takes tap, junit, csv or json, not xml\n",
        ),
        (vec!["test", &chart, &scenario, "--places", "two"], "--places takes a number, not two\n"),
        (vec!["test", &chart, &scenario, "--wrods", "1"], "no option --wrods\n"),
        (vec!["test", "-", &scenario, "-"], "one file at most can be standard input\n"),
    ] {
        let ran = run(&arguments);
        assert_eq!((ran.status, ran.printed.as_str()), (2, ""), "{arguments:?}");
        assert!(
            ran.said.starts_with(told) && ran.said.contains("usage: fairleadow test CHART SCENARIO "),
            "{}",
            ran.said
        );
    }
    let faulty = own("verdict_faulty.chart", "00\n");
    for (arguments, told) in [
        (vec!["test", "no/such.txt", &scenario], "no/such.txt: there is no such file\n"),
        (vec!["test", &faulty, &scenario], "line 1 has 2 characters, not 22"),
        (
            vec!["test", &chart, &scenario, "--places", "33"],
            "a stack of 33 places is asked for\n  refusal 14: ",
        ),
    ] {
        let ran = run(&arguments);
        assert!((ran.status, ran.printed.as_str()) == (1, "") && ran.said.contains(told), "{}", ran.said);
    }
    // the places of the call go before those of a scenario
    let ran = run(&["test", &chart, &scenario, "--places", "1"]);
    assert!(
        ran.status == 1 && ran.printed.contains("there is refusal 17: a call finds the stack full"),
        "{}",
        ran.printed
    );
    let ran = run(&["test", &chart, &example("")]);
    assert!(
        ran.status == 1 && ran.printed.contains(": not run: this is a directory, not a file\n"),
        "{}",
        ran.printed
    );
}

/// What a program prints for a text on its standard input, if it is here.
fn read_by(command: &str, arguments: &[&str], text: &str) -> Option<(i32, String)> {
    let started = Command::new(command).args(arguments).stdin(Stdio::piped()).stdout(Stdio::piped()).spawn();
    let Ok(mut child) = started else {
        println!("left out: there is no {command} to read it by");
        return None;
    };
    child.stdin.take().expect("a pipe").write_all(text.as_bytes()).expect("it reads");
    let output = child.wait_with_output().expect("it ends");
    Some((output.status.code().expect("a status"), String::from_utf8(output.stdout).expect("text")))
}

/// The report in TAP, line by line, and as Perl's harness reads it.
#[test]
fn tap_is_read_back() {
    let [good, differing, faulty] = three("tap");
    let ran = run(&["test", &example("bore.txt"), &good, &differing, &faulty, "--format", "tap"]);
    assert_eq!(ran.status, 1);
    let lines: Vec<&str> = ran.printed.lines().filter(|line| !line.starts_with("# ")).collect();
    let described = differing.replace('#', "\\#");
    let wanted = [
        "TAP version 13".to_string(),
        "1..3".to_string(),
        format!("ok 1 - {good}"),
        format!("not ok 2 - {described}"),
        format!("not ok 3 - {faulty}"),
    ];
    assert_eq!(lines, wanted);
    for told in [
        "\n# line 2, tick 2, node lower of bore_test: expected probe_down off, and it is on\n",
        "\n# not run: line 2, column 1: no condition is named 'boer'",
        "\n# all were taken: 10 nodes, 10 arcs and 2 function results\n",
    ] {
        assert!(ran.printed.contains(told), "{}", ran.printed);
    }
    for (printed, status, summary) in [
        (&ran.printed, 1, "Failed tests:  2-3"),
        (&run(&["test", &example("bore.txt"), &good, "--format=tap"]).printed, 0, "All tests successful."),
    ] {
        let report = own(&format!("verdicts{status}.tap"), printed);
        let Some((ended, told)) = read_by("prove", &["--exec", "cat", &report], "") else { return };
        assert!(ended == status && told.contains(summary), "{told}");
    }
}

/// The report in XML as Python reads it: suites, cases, failures and errors with their texts.
#[test]
fn junit_is_read_back() {
    let [good, differing, faulty] = three("junit");
    let ran = run(&["test", &example("bore.txt"), &good, &differing, &faulty, "--format", "junit"]);
    assert_eq!(ran.status, 1);
    let reading = "\
import sys, xml.etree.ElementTree as tree
root = tree.fromstring(sys.stdin.buffer.read())
counts = lambda of: [of.get(name) for name in ('tests', 'failures', 'errors')]
print(root.tag, counts(root), [(suite.tag, suite.get('name'), counts(suite)) for suite in root])
for case in root.iter('testcase'):
    print(case.get('classname'), case.get('name'), [(one.tag, one.get('message')) for one in case])
    for one in case:
        print(one.text)
print(root.find('testsuite/system-out').text)
";
    let Some((status, told)) = read_by("python3", &["-c", reading], &ran.printed) else { return };
    let wanted = format!(
        "\
testsuites ['3', '1', '1'] [('testsuite', 'bore.txt', ['3', '1', '1'])]
bore.txt {good} []
bore.txt {differing} [('failure', '2 differences in 3 ticks')]
line 1, tick 0, node end of drilling: expected drill on, and it is off
line 2, tick 2, node lower of bore_test: expected probe_down off, and it is on
bore.txt {faulty} [('error', \"line 2, column 1: no condition is named 'boer'; 'bore' is near to it\")]
line 2, column 1: no condition is named 'boer'; 'bore' is near to it
    boer; expect drill
    ^
  look for: the names of the chart's conditions; those without a name are x0 to x15
all were taken: 10 nodes, 10 arcs and 2 function results
"
    );
    assert_eq!((status, told), (0, wanted));
    // characters that XML cannot hold, in names that a shop gives and in a line that is shown
    let chart = own("hard.txt", "output 0 größe\nscheme 1\nbegin -> a\na: do größe -> end\nend\n");
    let scenario = own("hard\u{1b}[31m\u{7f}.scenario", "-\n-; expect größe\u{fffe}\u{1}]]>\n");
    let ran = run(&["test", &chart, &scenario, "--format", "junit"]);
    let Some((status, told)) = read_by("python3", &["-c", reading], &ran.printed) else { return };
    assert!(status == 0 && told.contains("hard\\u{1b}[31m\\u{7f}.scenario"), "{told}");
    assert!(read_by("xmllint", &["--noout", "-"], &ran.printed).is_none_or(|(status, _)| status == 0));
}

/// A difference in many ticks is one line, and a report of the longest run is made at once.
#[test]
fn a_long_run_is_told_shortly() {
    let chart = own(
        "long_wait.txt",
        "condition 0 go\nscheme 1\nbegin -> ask\nask: if go then end else wait\nwait: do y0 -> wait\nend\n",
    );
    let scenario = own("long_wait.scenario", "- * 65536; expect not y0, not y1\n");
    let ran = run(&["test", &chart, &scenario]);
    let lines: Vec<&str> = ran.printed.lines().collect();
    assert!(lines[0].ends_with(": failed, 65,536 ticks, 131,072 checks: 1 difference"), "{}", lines[0]);
    assert_eq!(lines[1], "  line 1, ticks 2 to 65535, node wait of s1: expected y0 off, and it is on");
}

//! An output that nobody reads, that is full or that is closed: what is told then, and the exit status.

mod shared;

use std::fs;
use std::io::Write;
use std::process::{Command, Stdio};

use shared::called::{file, path, written};

/// A device that takes nothing: the output is told to be lost, and what cannot be told leaves its status.
#[test]
fn a_full_device_is_told_and_keeps_the_status() {
    let full = || Stdio::from(fs::File::options().write(true).open("/dev/full").expect("a device"));
    let program = || Command::new(env!("CARGO_BIN_EXE_fairleadow"));
    let ran = program().args(["show", &path("paper.chart")]).stdout(full()).output().expect("it ends");
    let told = String::from_utf8(ran.stderr).expect("text");
    assert!(told.starts_with("the output cannot be written: No space left on device"), "{told}");
    assert_eq!(ran.status.code(), Some(1));
    for (arguments, status) in [(vec!["check", "no/such.chart"], 1), (vec!["chekc"], 2), (vec!["show"], 2)] {
        let ran = program().args(&arguments).stderr(full()).output().expect("it ends");
        assert_eq!(ran.status.code(), Some(status), "{arguments:?}");
    }
}

/// Each command by its name, with arguments by which it prints something.
fn printing() -> [Vec<String>; 16] {
    let (chart, image, prices) = (path("roughing.txt"), path("roughing.image"), path("roughing.prices"));
    let (patch, scenario) = (written("lost.patch", "at 4 when x2 and x6 go to 6\n"), path("bore.scenario"));
    let words = |line: &str| {
        let files = [
            ("CHART", &chart),
            ("IMAGE", &image),
            ("PRICES", &prices),
            ("PATCH", &patch),
            ("SCENARIO", &scenario),
        ];
        let named = |word: &str| {
            files
                .iter()
                .find(|(name, _)| *name == word)
                .map_or(word.to_string(), |(_, file)| file.to_string())
        };
        line.split(' ').map(named).collect()
    };
    [
        "check CHART",
        "compose CHART",
        "show CHART",
        "translate CHART",
        "patch IMAGE PATCH",
        "diff CHART IMAGE",
        "places PLACES",
        "trace CHART",
        "test PLACES SCENARIO",
        "why CHART --words 0,0,4",
        "bill CHART --prices PRICES",
        "fillings CHART",
        "minimise CHART",
        "draw CHART",
        "page CHART -o -",
        "wall 2",
    ]
    .map(|line| words(&line.replace("PLACES", &path("bore.txt"))))
}

/// An output that is closed, or open for reading only, is told and is status 1, in every command.
#[test]
fn a_closed_output_is_told() {
    for (arguments, closed) in printing().iter().flat_map(|call| [">&-", "1</dev/null"].map(|to| (call, to)))
    {
        let closing = format!("exec \"$0\" \"$@\" {closed}");
        let ran = Command::new("sh")
            .args(["-c", &closing, env!("CARGO_BIN_EXE_fairleadow")])
            .args(arguments)
            .output();
        let ran = ran.expect("it ends");
        let told = String::from_utf8(ran.stderr).expect("text");
        if told.starts_with("dot is not installed") {
            continue;
        }
        assert_eq!(
            told, "the output cannot be written: standard output is not open for writing\n",
            "{arguments:?} {closed}"
        );
        assert_eq!(ran.status.code(), Some(1), "{arguments:?}");
    }
    // help and version print too, and where nothing is printed nothing is lost
    let ran =
        Command::new("sh").args(["-c", "exec \"$0\" --help >&-", env!("CARGO_BIN_EXE_fairleadow")]).output();
    assert_eq!(ran.expect("it ends").status.code(), Some(1));
}

/// A refusal is told and is status 1 also where the reader of the output, or the output itself, is gone.
#[test]
fn a_refusal_is_told_whether_or_not_the_output_is_read() {
    let bad = written("unread.chart", &file("paper.chart").replace("F8", "F9"));
    let check = vec!["check".to_string(), path("home.chart"), bad.clone()];
    let trace = ["trace", &path("paper.chart"), "--places", "1"].map(String::from).to_vec();
    for (arguments, refusal) in [(check, "refusal 3: "), (trace, "ended by refusal 17 ")] {
        for (output, lost) in [("| true", false), (">&-", true)] {
            // waits until the reader is gone
            let script = match lost {
                true => "\"$0\" \"$@\" >&-; echo $? >&2",
                false => "{ sleep 0.2; \"$0\" \"$@\"; echo $? >&2; } | true",
            };
            let ran = Command::new("sh")
                .args(["-c", script, env!("CARGO_BIN_EXE_fairleadow")])
                .args(&arguments)
                .output();
            let told = String::from_utf8(ran.expect("it ends").stderr).expect("text");
            assert!(told.contains(refusal) && told.ends_with("\n1\n"), "{output}: {told}");
            assert_eq!(told.contains("standard output is not open for writing"), lost, "{told}");
        }
    }
    fs::remove_file(bad).expect("it was written");
}

/// A reader that has enough is no fault.
#[test]
fn a_closed_pipe_is_no_fault() {
    let mut child = Command::new(env!("CARGO_BIN_EXE_fairleadow"))
        .args(["show", "-"])
        .stdin(Stdio::piped())
        .stdout(Stdio::piped())
        .stderr(Stdio::piped())
        .spawn()
        .expect("the program starts");
    drop(child.stdout.take());
    child.stdin.take().expect("a pipe").write_all(file("paper.chart").as_bytes()).expect("it reads");
    let output = child.wait_with_output().expect("it ends");
    assert!(output.status.success() && output.stderr.is_empty());
}

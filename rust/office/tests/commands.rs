//! The commands check, compose and show: what they print, where, and their exit status.

mod shared;

use std::fs;

use shared::called::{fairleadow, file, path, written};

#[test]
fn check_accepts_charts_images_and_the_notation() {
    let (status, out, told) = fairleadow(&["check", &path("roughing.chart"), &path("roughing.image")], b"");
    assert_eq!((status, told.as_str()), (0, ""));
    let lines: Vec<&str> = out.lines().collect();
    let chart = "accepted: a chart of 9 nodes in 2 schemes; its image has 7 labels and 6 rows; \
                 may need any number of places:";
    assert!(lines[0].ends_with(&format!("roughing.chart: {chart} s2 calls itself")));
    assert!(lines[1]
        .starts_with("  warning: line 8, column 5: y0 is on here and again in line 9, and off between"));
    assert!(lines[2].ends_with("roughing.image: accepted: an image of 2 schemes, 7 labels and 6 rows"));
    let texts = [(file("roughing.txt"), "roughing"), (file("roughing.chart").to_lowercase(), "s2")];
    for (text, name) in texts {
        let (status, out, told) = fairleadow(&["check", "-"], text.as_bytes());
        assert_eq!((status, told.as_str()), (0, ""));
        assert_eq!(out.lines().next(), Some(format!("standard input: {chart} {name} calls itself").as_str()));
    }
    let (status, out, _) = fairleadow(&["check", "-"], file("roughing.image").to_lowercase().as_bytes());
    assert!(status == 0 && out.contains("accepted: an image of 2 schemes"), "{out}");
}

/// A chart with all that is likely not meant is accepted, and each is told by its line.
#[test]
fn check_warns_of_what_was_likely_not_meant() {
    let chart = "condition 1 idle\noutput 0 clamp\noutput 1 idler\noutput 2 feed\n\nscheme 1\nbegin -> hold\n\
                 hold: do clamp, feed; call cut -> keep\nkeep: do clamp -> ask\nask: if call cut then go else go\n\
                 go: do clamp -> end\nend\n\nscheme 2 cut\nbegin -> in\nin: do feed; write 0 -> end\nend\n\n\
                 scheme 3 spare\nbegin -> end\nend\n\nscheme 4 full\nbegin when the stack is full -> end\nend\n";
    let (status, out, told) = fairleadow(&["check", "-"], chart.as_bytes());
    assert_eq!((status, told.as_str()), (0, ""));
    let lines: Vec<&str> = out.lines().collect();
    assert!(lines[0].starts_with("standard input: accepted: a chart of 13 nodes in 4 schemes;"), "{out}");
    let warnings = [
        "line 1: condition 1 is named idle, and no node asks it",
        "line 3: output 1 is named idler, and no node puts it out",
        "line 8 (node hold): clamp is on here and again in keep (line 9), and off between them, in the tick of the called \
         scheme's End at least",
        "line 10 (node ask): both arcs lead to go (line 11), so nothing is decided here",
        "line 10 (node ask): scheme cut never writes 1, so this function goes on as on a 0, unless another scheme serves its \
         call",
        "line 10 (node ask): clamp is on in keep (line 9) and again in go (line 11), and off between them, in the function's \
         own tick at least",
        "line 20 (begin): no other scheme calls scheme spare: only a swap opens it",
    ];
    assert_eq!(lines[1..], warnings.map(|words| format!("  warning: {words}")));
    // a call by itself puts nothing out in its own tick, whatever the box before it calls
    for before in ["", "; call sub"] {
        let chart = format!(
            "output 0 spindle\nscheme 1\nbegin -> a\na: do spindle{before} -> c\nc: call sub -> b\nb: do spindle -> end\nend\n\
             scheme 2 sub\nbegin -> end\nend\n"
        );
        let warning = "line 5 (node c): spindle is on in a (line 4) and again in b (line 6), and off between them, in this box's own \
                       tick at least";
        let out = fairleadow(&["check", "-"], chart.as_bytes()).1;
        assert_eq!(out.lines().skip(1).collect::<Vec<&str>>(), [format!("  warning: {warning}")]);
    }
    // what holds before a calling box and after it is off in the box's own tick where it is not among its outputs, and over two functions
    // in turn, which are told once
    let held = "output 0 clamp\noutput 1 drill\nscheme 1\nbegin -> a\na: do clamp -> b\nb: do drill; call sub -> c\nc: do clamp -> d\n\
                 d: if call sub then e else f\ne: if call sub then f else g\nf: do drill -> end\ng: do clamp -> end\nend\n\
                 scheme 2 sub\nbegin -> yes\nyes: write 1 -> end\nend\n";
    let out = fairleadow(&["check", "-"], held.as_bytes()).1;
    let warnings = [
        "line 6 (node b): clamp is on in a (line 5) and again in c (line 7), and off between them, in this box's own tick at least",
        "line 8 (node d): clamp is on in c (line 7) and again in g (line 11), and off between them, in the function's own tick at \
         least",
    ];
    let warnings = warnings.map(|words| format!("  warning: {words}"));
    assert_eq!(out.lines().skip(1).collect::<Vec<&str>>(), warnings);
    // two schemes that only call each other, and one that only they call; what the handler calls is open when the stack is full
    let circle = "scheme 1\nbegin -> end\nend\nscheme 2 there\nbegin -> a\na: do nothing; call back -> end\nend\n\
                  scheme 3 back\nbegin -> b\nb: do nothing; call there -> c\nc: do nothing; call only -> end\nend\n\
                  scheme 4 only\nbegin -> end\nend\n\
                  scheme 5 full\nbegin when the stack is full -> d\nd: do nothing; call off -> end\nend\n\
                  scheme 6 off\nbegin -> end\nend\n";
    let out = fairleadow(&["check", "-"], circle.as_bytes()).1;
    let warnings = [(5, "there"), (9, "back"), (14, "only")].map(|(line, scheme)| {
        format!("  warning: line {line} (begin): no calls lead from scheme 1 to scheme {scheme}: it is open only after a swap")
    });
    assert_eq!(out.lines().skip(1).collect::<Vec<&str>>(), warnings);
    // by the lines of digits too, where there are no names
    let lines = fairleadow(&["compose", "-"], chart.as_bytes()).1;
    let out = fairleadow(&["check", "-"], lines.as_bytes()).1;
    assert_eq!(out.lines().count(), 6);
    assert!(
        out.contains("\n  warning: line 4, column 7: both arcs lead to 04 (line 5), so nothing"),
        "{out}"
    );
    for name in ["bore", "branches", "home", "paper", "two_blocks"] {
        assert_eq!(fairleadow(&["check", &path(&format!("{name}.txt"))], b"").1.lines().count(), 1, "{name}");
    }
}

#[test]
fn check_tells_refusals_with_status_1() {
    let faulty = file("paper.chart").replace("F8", "F9");
    let (status, out, told) = fairleadow(&["check", "-"], faulty.as_bytes());
    assert_eq!((status, out.as_str()), (1, ""));
    let lines: Vec<&str> = told.lines().collect();
    assert_eq!(lines[0], "standard input: line 2, column 21: the sum should be F8, not F9");
    assert_eq!(lines[1..3], ["    02010202000000000001F9", "                        ^"]);
    assert!(lines[3].starts_with("  refusal 3: ") && lines[4].starts_with("  look for: "));
    let paths = [written("bad.chart", &faulty), path("home.chart"), written("empty.chart", "")];
    let (status, out, told) = fairleadow(&["check", &paths[0], &paths[1], &paths[2]], b"");
    assert_eq!(status, 1);
    assert!(out.contains("home.chart: accepted") && out.lines().count() == 1);
    assert!(told.contains("bad.chart: line 2, column 21") && told.contains("empty.chart: the file is empty"));
    for path in [&paths[0], &paths[2]] {
        fs::remove_file(path).expect("it was written");
    }
}

/// Every name as long as a name may be, in every command that prints names, and one that is longer.
#[test]
fn long_names_go_through_every_command() {
    let chart = |length: usize| {
        let name = |first: &str| format!("{first}{}", "w".repeat(length - 1));
        let [condition, output, scheme, node] = ["c", "o", "s", "n"].map(name);
        format!(
            "condition 2 {condition}\noutput 0 {output}\nscheme 1\nbegin -> {node}\n{node}: do {output} -> ask\n\
             ask: if {condition} then call_it else end\ncall_it: call {scheme} -> end\nend\n\
             scheme 2 {scheme}\nbegin -> end\nend\n"
        )
    };
    let (prices, scenario) =
        (written("long.prices", "y0 1\n"), written("long.scenario", "4 * 20; expect at last y0\n"));
    let (longest, longer) = (written("longest.txt", &chart(64)), written("longer.txt", &chart(65_536)));
    for (command, rest) in [
        ("check", vec![]),
        ("places", vec![]),
        ("trace", vec!["--words", "4", "--ticks", "20"]),
        ("bill", vec!["--prices", &prices, "--words", "4", "--ticks", "20"]),
        ("trace", vec!["--scenario", &scenario, "--save", "-", "--expect"]),
        ("draw", vec!["--svg"]),
        ("page", vec!["-o", "-", "--words", "4"]),
    ] {
        let said = |chart: &str| fairleadow(&[&[command, chart], &rest[..]].concat(), b"");
        let (status, _, told) = said(&longest);
        assert!(status == 0 || told.starts_with("dot is not installed"), "{command}: {told}");
        let (status, out, told) = said(&longer);
        assert_eq!((status, out.as_str()), (1, ""), "{command}");
        assert!(told.contains("longer.txt: line 1, column 13: the name 'cwwww"), "{command}: {told}");
        assert!(told.contains("...' has 65,536 characters, and 64 are the most\n"), "{command}: {told}");
    }
    for path in [prices, scenario, longest, longer] {
        fs::remove_file(path).expect("it was written");
    }
}

#[test]
fn files_that_cannot_be_read() {
    for name in ["check", "compose", "show", "places"] {
        let told = format!("{}: this is a directory, not a file\n", path(""));
        assert_eq!(fairleadow(&[name, &path("")], b""), (1, String::new(), told));
        let told = format!("{}: there is no such file\n", path("none.chart"));
        assert_eq!(fairleadow(&[name, &path("none.chart")], b""), (1, String::new(), told));
    }
    let (status, _, told) = fairleadow(&["check", "-"], &vec![b'0'; 2 << 20]);
    assert_eq!(
        (status, told.lines().next().unwrap()),
        (1, "standard input: the file has more than 1,048,576 characters")
    );
}

#[test]
fn compose_and_show_turn_into_each_other() {
    for name in
        ["bore", "branches", "finishing", "full_stack", "home", "paper", "roughing", "swapped", "two_blocks"]
    {
        let (chart, notation) = (format!("{name}.chart"), format!("{name}.txt"));
        assert_eq!(fairleadow(&["compose", &path(&notation)], b""), (0, file(&chart), String::new()));
        let (status, shown, _) = fairleadow(&["show", &path(&chart)], b"");
        assert_eq!(status, 0);
        assert_eq!(fairleadow(&["compose", "-"], shown.as_bytes()), (0, file(&chart), String::new()));
        assert_eq!(fairleadow(&["show", &path(&notation)], b"").1, file(&notation));
    }
}

#[test]
fn show_tells_what_is_refused() {
    let (status, out, told) =
        fairleadow(&["show", "-"], file("paper.chart").replace('\n', "\r\n").as_bytes());
    assert_eq!((status, out.as_str()), (1, ""));
    assert!(told.starts_with("standard input: line 1 ends with a carriage return, and so do 6 more\n"));
    let image = "10010000000000000000EF\n".repeat(1_297);
    let (status, _, told) = fairleadow(&["show", "-"], format!("0F010100000000000000EF\n{image}").as_bytes());
    assert_eq!(status, 1);
    assert!(
        told.starts_with("standard input: the file has 1,298 lines, and an image has at most 1,297\n"),
        "{told}"
    );
    let damaged = file("paper.image").replace("E7\n", "E8\n");
    let (status, out, told) = fairleadow(&["show", "-"], damaged.as_bytes());
    assert_eq!((status, out.as_str()), (1, ""));
    assert!(told.contains(": line 1, column 21: the sum should be E7, not E8\n"), "{told}");
}

#[test]
fn compose_tells_what_is_no_notation() {
    let (status, _, told) = fairleadow(&["compose", &path("paper.chart")], b"");
    assert_eq!(status, 1);
    assert!(
        told.contains("paper.chart: this looks like a chart, not like the readable notation\n"),
        "{told}"
    );
    let (status, _, told) = fairleadow(&["compose", "-"], b"Dear sirs,\n");
    assert_eq!(status, 1);
    assert!(
        told.starts_with(
            "standard input: line 1, column 1: 'Dear', where a name and a colon, or one of: begin, "
        ),
        "{told}"
    );
    let (status, _, told) = fairleadow(&["compose", "-"], b"\xFF\xFEs\0c\0h\0");
    assert_eq!(status, 1);
    assert!(
        told.starts_with("standard input: line 1, column 1: byte FF is no character in UTF-8\n"),
        "{told}"
    );
    let (status, _, told) = fairleadow(&["compose", "-"], b"");
    assert_eq!(status, 1);
    assert!(
        told.starts_with("standard input: there is no node in it\n  refusal 1: a chart has 1 to 256 nodes, "),
        "{told}"
    );
}

//! The words of a call: help, options in every usual way, names of files in any encoding, and tables on a terminal.

mod shared;

use std::process::Command;
use std::{env, fs};

use fairleadow::VERSION;
use shared::called::{example, fairleadow, file, path, written};

#[test]
fn help_and_wrong_calls() {
    let (status, help, none) = fairleadow(&["--help"], b"");
    assert_eq!((status, none.as_str()), (0, ""));
    assert!(help.starts_with("usage: fairleadow COMMAND ARGUMENTS\n"));
    assert!(
        help.contains("\n  show FILE [--names CHART]\n                   turns chart lines into"),
        "{help}"
    );
    for name in ["check FILE", "compose FILE", "places FILE"] {
        assert!(help.lines().any(|line| line.trim_start().starts_with(name) && line.len() > 30), "{name}");
    }
    assert!(
        help.contains(
            "but for compose, translate, places and test it may also\nbe an image; - is standard input. The CHART of --names is a chart.\n"
        ),
        "{help}"
    );
    assert_eq!(fairleadow(&["-h"], b"").1, help);
    assert_eq!(fairleadow(&[], b""), (2, String::new(), help.clone()));
    let (status, out, told) = fairleadow(&["chekc", "x"], b"");
    assert_eq!((status, out.as_str()), (2, ""));
    assert_eq!(told, format!("no command chekc; did you mean check?\n{help}"));
}

/// Every line of help, and of the usage that a wrong call is told, fits a window of 120 columns.
#[test]
fn help_fits_a_window() {
    let (_, help, _) = fairleadow(&["--help"], b"");
    let names: Vec<&str> = help
        .lines()
        .filter(|line| line.starts_with("  ") && !line.starts_with("   "))
        .filter_map(|line| line.split_whitespace().next())
        .collect();
    assert!(names.len() == 18 && names.contains(&"patch"), "{names:?}");
    let texts = names
        .iter()
        .flat_map(|name| [fairleadow(&[name, "--help"], b"").1, fairleadow(&[name, "--no-such"], b"").2]);
    for text in texts.chain([help.clone()]) {
        assert!(text.lines().all(|line| line.chars().count() <= 120), "{text}");
    }
}

#[test]
fn each_command_has_a_usage_line() {
    for (name, lines) in [("check", 7), ("compose", 2), ("show", 2), ("places", 4)] {
        let (status, out, _) = fairleadow(&[name, "--help"], b"");
        assert_eq!(status, 0);
        assert!(
            out.starts_with(&format!("usage: fairleadow {name} FILE")) && out.lines().count() == lines,
            "{out}"
        );
        let usage = out.lines().next().unwrap();
        assert_eq!(fairleadow(&[name], b""), (2, String::new(), format!("a file is missing\n{usage}\n")));
        assert_eq!(
            fairleadow(&[name, "--fast"], b""),
            (2, String::new(), format!("no option --fast\n{usage}\n"))
        );
    }
    for arguments in [&["check", ""][..], &["places", "a", ""], &["show", ""], &["draw", ""]] {
        let (status, out, told) = fairleadow(arguments, b"");
        assert_eq!((status, out.as_str()), (2, ""));
        assert!(told.starts_with("the name of a file is empty\nusage: "), "{told}");
    }
    let (status, _, told) = fairleadow(&["minimise", &path("paper.chart"), "-o", ""], b"");
    assert!(status == 2 && told.starts_with("-o is given, and nothing stands after it\n"), "{told}");
    let told = "one file only, and b is one more\nusage: fairleadow show FILE [--names CHART]\n";
    assert_eq!(fairleadow(&["show", "a", "b"], b""), (2, String::new(), told.to_string()));
}

/// A name that is not in UTF-8, and one with codes that would paint on a terminal, are read, and told as they can be seen.
#[test]
fn any_name_of_a_file_is_read_and_shown_without_codes() {
    use std::ffi::OsString;
    use std::os::unix::ffi::OsStringExt;
    let folder = env::temp_dir().join(format!("fairleadow-{}-names", std::process::id()));
    fs::create_dir_all(&folder).expect("a folder");
    let named = |name: &[u8]| folder.join(OsString::from_vec(name.to_vec()));
    let (latin, red) = (named(b"Fr\xE4ser.txt"), named(b"\x1B[31mred\n.chart"));
    fs::copy(example("bore.txt"), &latin).expect("a file");
    fs::write(&red, file("paper.chart").replace("F8", "F9")).expect("a file");
    let program = || Command::new(env!("CARGO_BIN_EXE_fairleadow"));
    let said = |command: &mut Command| {
        let ran = command.output().expect("it ends");
        let text = |bytes| String::from_utf8(bytes).expect("text");
        (ran.status.code().expect("a status"), text(ran.stdout), text(ran.stderr))
    };
    let (status, out, told) = said(program().arg("check").args([&latin, &red]));
    assert_eq!((status, out.lines().count()), (1, 1));
    assert!(out.contains("Fr\u{FFFD}ser.txt: accepted: a chart of 10 nodes"), "{out}");
    assert!(
        told.contains("\\u{1b}[31mred\\n.chart: line 2, column 21: ") && !told.contains('\u{1b}'),
        "{told}"
    );
    let (status, out, _) = said(program().arg("trace").arg(&latin).arg("--words=0,0"));
    assert!(status == 0 && out.starts_with("Fr\u{FFFD}ser.txt: 10 nodes"), "{out}");
    let words = named(b"words\xFF");
    fs::write(&words, "0\n0\n").expect("a file");
    let (status, out, _) = said(program().arg("trace").arg(&latin).arg("--words").arg(&words));
    assert!(status == 0 && out.contains("\n2 ticks; "), "{out}");
    let written = named(b"small\xFF.image");
    assert_eq!(said(program().arg("minimise").arg(&latin).arg("-o").arg(&written)).0, 0);
    assert!(written.exists());
    fs::remove_dir_all(folder).expect("it was made");
}

#[test]
fn the_version_and_the_help_of_a_command_are_asked_for() {
    let version =
        format!("fairleadow {}, with version {VERSION} of the library\n", env!("CARGO_PKG_VERSION"));
    assert_eq!(fairleadow(&["--version"], b""), (0, version, String::new()));
    assert_eq!(fairleadow(&["help"], b""), fairleadow(&["--help"], b""));
    for name in ["check", "trace", "page", "wall"] {
        for asked in ["help", "--help", "-h"] {
            assert_eq!(fairleadow(&[asked, name], b""), fairleadow(&[name, "--help"], b""));
        }
    }
    for asked in [["help", "help"], ["help", "--help"], ["--help", "-h"]] {
        assert_eq!(fairleadow(&asked, b""), fairleadow(&["help"], b""));
    }
    let (status, _, told) = fairleadow(&["--versoin"], b"");
    assert!(status == 2 && told.starts_with("no command --versoin; did you mean --version?\n"), "{told}");
    let (status, _, told) = fairleadow(&["help", "trase"], b"");
    assert!(status == 2 && told.starts_with("no command trase; did you mean trace?\n"), "{told}");
}

/// An option's value after a =, files after --, and what was likely meant.
#[test]
fn options_are_written_in_every_usual_way() {
    let chart = path("bore.txt");
    let wanted = fairleadow(&["trace", &chart, "--words", "0,8", "--places", "2"], b"");
    assert_eq!(wanted.0, 0);
    assert_eq!(fairleadow(&["trace", "--words=0,8", "--places=2", "--", &chart], b""), wanted);
    let (status, _, told) = fairleadow(&["check", "--", "--no-such"], b"");
    assert_eq!((status, told.as_str()), (1, "--no-such: there is no such file\n"));
    let (status, _, told) = fairleadow(&["show", "--", "--help"], b"");
    assert_eq!((status, told.as_str()), (1, "--help: there is no such file\n"));
    for (arguments, told) in [
        (["trace", &chart, "--word=0"], "no option --word; did you mean --words?\n"),
        (["draw", &chart, "--svg=no"], "--svg takes no value\n"),
        (["wall", "2", "--fast"], "no option --fast\n"),
    ] {
        let (status, _, said) = fairleadow(&arguments, b"");
        assert!(status == 2 && said.starts_with(told), "{said}");
    }
}

/// On a terminal a table that is wider says how to read it; elsewhere nothing is added.
#[test]
fn a_wide_table_says_how_to_read_it_on_a_terminal() {
    let line = format!("{} trace {} --words 0,0", env!("CARGO_BIN_EXE_fairleadow"), path("bore.txt"));
    let ran = Command::new("script").args(["-qec", &line, "/dev/null"]).env_remove("COLUMNS").output();
    let Ok(ran) = ran else { return println!("left out: there is no terminal to try (script)") };
    let shown = String::from_utf8_lossy(&ran.stdout).into_owned();
    assert!(shown.contains("(lines of up to ") && shown.contains("`| less -S`"), "{shown}");
    let wide = Command::new("script").args(["-qec", &line, "/dev/null"]).env("COLUMNS", "200").output();
    assert!(!String::from_utf8_lossy(&wide.expect("it ends").stdout).contains("less -S"));
    assert!(!fairleadow(&["trace", &path("bore.txt"), "--words", "0,0"], b"").1.contains("less -S"));
}

/// A table with names that take two columns a letter has its columns under each other.
#[test]
fn columns_stand_under_each_other_whatever_the_alphabet() {
    let chart = written(
        "wide.txt",
        "output 0 主轴\noutput 1 cut\nscheme 1 车床\nbegin -> 切\n切: do 主轴 -> b\nb: do cut -> end\nend\n",
    );
    let (status, out, _) = fairleadow(&["trace", &chart, "--words", "0,0,0,0"], b"");
    assert_eq!(status, 0);
    let table: Vec<&str> = out.lines().skip(2).take(5).collect();
    let place = |line: &str, text: &str| office::columns::width(line.split(text).next().expect("a part"));
    let wanted = place(table[0], "outputs");
    assert_eq!([place(table[2], "主轴"), place(table[3], "cut")], [wanted; 2], "{out}");
    let shown = fairleadow(&["show", &chart], b"").1;
    assert_eq!(
        place(&shown[shown.find("切: ").expect("a node")..], "do"),
        place(&shown[shown.find("b: ").expect("one")..], "do")
    );
    fs::remove_file(chart).expect("it was written");
}

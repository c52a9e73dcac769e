//! fairleadow(1): that readers of man pages take it, and that it says what the help says.

mod shared;

use std::process::Command;

use shared::browser::installed;
use shared::called::{fairleadow, written};

/// Text without what lays it out: every run of spaces and line ends is one space.
fn plain(text: &str) -> String {
    text.split_whitespace().collect::<Vec<&str>>().join(" ")
}

#[test]
fn readers_of_man_pages_find_nothing_to_say() {
    let (status, page, told) = fairleadow(&["help", "--man"], b"");
    assert_eq!((status, told.as_str()), (0, ""));
    let file = written("fairleadow.1", &page);
    let said = |program: &str, arguments: &[&str]| {
        let output = Command::new(program).args(arguments).arg(&file).output().expect("it starts");
        [output.stdout, output.stderr].map(|bytes| String::from_utf8_lossy(&bytes).into_owned())
    };
    if Command::new("mandoc").arg("-V").output().is_ok() {
        // it has no date, for it is made when it is asked for
        let [found, _] = said("mandoc", &["-Tlint", "-Wwarning"]);
        let found: Vec<&str> = found.lines().filter(|line| !line.contains(": missing date, ")).collect();
        assert!(found.is_empty(), "{found:?}");
    } else {
        eprintln!("left out: mandoc is not installed (Debian's package mandoc)");
    }
    if installed("groff") {
        let [printed, found] = said("groff", &["-man", "-Tutf8", "-P-cbou", "-ww", "-rLL=2000n", "-rHY=0"]);
        assert_eq!(found, "");
        let printed = plain(&printed.replace('−', "-"));
        let help = fairleadow(&["--help"], b"").1;
        let names = help.lines().filter(|line| line.starts_with("  ") && !line.starts_with("   "));
        let names: Vec<&str> = names.filter_map(|line| line.split_whitespace().next()).collect();
        assert!(names.len() >= 17);
        for name in names {
            let help = fairleadow(&["help", name], b"").1;
            let help = help.strip_prefix("usage: ").expect("a usage line");
            assert!(printed.contains(&plain(help)), "{name}: {}\n{printed}", plain(help));
        }
        let common = &help[help.find("\nA FILE or CHART").expect("what is common")..];
        assert!(printed.contains(&plain(common)));
    } else {
        eprintln!("left out: groff is not installed (Debian's package groff)");
    }
    std::fs::remove_file(file).expect("it was written");
}

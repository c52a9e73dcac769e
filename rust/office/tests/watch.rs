//! `fairleadow watch`: what it tells while its file is edited, as the lines come.

mod shared;

use std::fs;
use std::io::{BufRead, BufReader};
use std::process::{Child, Stdio};
use std::sync::mpsc::{channel, Receiver};
use std::thread;
use std::time::Duration;

use shared::browser::installed;
use shared::called::{fairleadow, file, written};
use shared::program;

/// The program while it watches, and its lines.
struct Watched {
    child: Child,
    lines: Receiver<String>,
}

impl Watched {
    fn with(arguments: &[&str]) -> Watched {
        let mut command = program(&[&["watch"], arguments].concat());
        let mut child = command.stdin(Stdio::null()).stdout(Stdio::piped()).spawn().expect("it starts");
        let (sender, lines) = channel();
        let printed = BufReader::new(child.stdout.take().expect("a pipe"));
        thread::spawn(move || {
            for line in printed.lines().map_while(Result::ok) {
                // nobody listens once the test is over
                let _ = sender.send(line);
            }
        });
        Watched { child, lines }
    }

    fn next(&self) -> String {
        self.lines.recv_timeout(Duration::from_secs(60)).expect("a line")
    }

    /// What follows the time of day on the next line.
    fn timed(&self) -> String {
        let line = self.next();
        let (time, told) = line.split_at(9);
        let parts: Vec<&str> = time.trim_end().split(':').collect();
        assert!(
            parts.len() == 3 && parts.iter().all(|part| part.len() == 2 && part.parse::<u8>().is_ok()),
            "{line}"
        );
        told.to_string()
    }

    /// Whether nothing is told for three looks.
    fn is_quiet(&self) -> bool {
        self.lines.recv_timeout(Duration::from_millis(1_500)).is_err()
    }
}

impl Drop for Watched {
    fn drop(&mut self) {
        let _ = self.child.kill();
        let _ = self.child.wait();
    }
}

/// Puts another text in a file's place, so that no look finds half of it.
fn changed(path: &str, text: impl AsRef<[u8]>) {
    let beside = format!("{path}.new");
    fs::write(&beside, text).expect("a file");
    fs::rename(beside, path).expect("a file");
}

#[test]
fn each_change_is_told_once_and_a_file_that_is_gone_is_waited_for() {
    let text = file("bore.txt");
    let chart = written("watched.txt", &text);
    let said = |chart: &str| {
        let (_, out, told) = fairleadow(&["check", chart], b"");
        out + &told
    };
    let watched = Watched::with(&[&chart]);
    let accepted = said(&chart);
    assert_eq!(watched.timed() + "\n", accepted);
    assert!(watched.is_quiet());
    // the same text again is no change
    changed(&chart, &text);
    assert!(watched.is_quiet());
    // half of it, then all of it, with a warning
    changed(&chart, &text[..text.len() / 2]);
    let refused = said(&chart);
    let told: Vec<String> =
        [watched.timed()].into_iter().chain((1..refused.lines().count()).map(|_| watched.next())).collect();
    assert_eq!(told.join("\n") + "\n", refused);
    assert!(refused.contains(": line "), "{refused}");
    changed(&chart, text.replace("output 4", "output 5 saw\noutput 4"));
    assert_eq!(format!("{}\n{}\n", watched.timed(), watched.next()), said(&chart));
    fs::remove_file(&chart).expect("it is there");
    assert_eq!(watched.timed(), format!("{chart}: there is no such file"));
    assert!(watched.is_quiet());
    changed(&chart, &text);
    assert_eq!(watched.timed() + "\n", accepted);
    drop(watched);
    fs::remove_file(&chart).expect("it is there");
}

#[test]
fn the_page_follows_the_chart_and_its_scenario() {
    if !installed("dot") {
        eprintln!("left out: dot is not installed (Debian's package graphviz)");
        return;
    }
    let chart = written("paged.txt", &file("bore.txt"));
    let scenario = written("paged.scenario", "- * 3\n");
    let page = written("paged.html", "an old page");
    let (own, wanted) = (["--scenario", &scenario, "-o", &page], ["--scenario", &scenario, "-o", "-"]);
    let made = || fairleadow(&[&["page", &chart], &wanted[..]].concat(), b"").1;
    let watched = Watched::with(&[&[chart.as_str()], &own[..]].concat());
    let told = format!("{chart}: accepted: ");
    assert!(watched.timed().starts_with(&told));
    assert_eq!(watched.next(), format!("{page}: written"));
    let first = fs::read_to_string(&page).expect("a page");
    assert_eq!(first, made());
    changed(&scenario, "- * 5\n");
    assert!(watched.timed().starts_with(&told));
    assert_eq!(watched.next(), format!("{page}: written"));
    let second = fs::read_to_string(&page).expect("a page");
    assert!(second == made() && second != first);
    // what is refused leaves the page as it was
    changed(&scenario, "none * 5\n");
    assert!(watched.timed().starts_with(&told));
    assert!(watched.next().starts_with(&format!("{scenario}: line 1, column 1: ")));
    changed(&chart, "scheme\n");
    while !watched.next().contains(&format!("{chart}: line 1, column 7: ")) {}
    assert_eq!(fs::read_to_string(&page).expect("a page"), second);
    drop(watched);
    for path in [chart, scenario, page] {
        fs::remove_file(path).expect("it was written");
    }
}

#[test]
fn what_cannot_be_watched_is_told_at_once() {
    let chart = written("unwatched.txt", &file("bore.txt"));
    for (arguments, why) in [
        (vec!["-"], "only files can be watched and written, and - is none"),
        (vec![&chart, "-o", "-"], "only files can be watched and written, and - is none"),
        (vec![&chart, "--words", "count"], "--words goes with -o"),
        (vec![&chart, "--force"], "--force goes with -o"),
        (vec![&chart, "-o", &chart], "is read by this command: it would be lost"),
    ] {
        let (status, out, told) = fairleadow(&[&["watch"], &arguments[..]].concat(), b"");
        assert_eq!((status, out.as_str()), (2, ""), "{told}");
        let (first, usage) = told.split_once('\n').expect("two lines");
        assert!(first.ends_with(why) && usage.starts_with("usage: fairleadow watch "), "{told}");
    }
    // what is wrong with a page's options is known once the chart is read
    let page = written("unwatched.html", "");
    let (status, out, told) = fairleadow(&["watch", &chart, "-o", &page, "--words", "knot*3"], b"");
    assert!(
        status == 2 && out.contains(": accepted: ") && told.starts_with("in the words knot*3: no condition "),
        "{status} {told}"
    );
    for path in [chart, page] {
        fs::remove_file(path).expect("it was written");
    }
}

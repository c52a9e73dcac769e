//! docs/CHARTS.md: each command that it shows prints what it shows.

use std::env;
use std::ffi::OsString;
use std::fs;
use std::path::{Path, PathBuf};
use std::process::Command;

use office::plan::Plan;
use office::source::load;
use office::trace::{trace, Tick};

fn top() -> PathBuf {
    Path::new(env!("CARGO_MANIFEST_DIR")).join("../..")
}

/// The commands of a page, each with the lines below it in its block.
fn commands(page: &str) -> Vec<(String, String)> {
    let blocks = page.split("```\n").skip(1).step_by(2);
    let command = |block: &str| {
        let (first, printed) = block.split_once('\n')?;
        Some((first.strip_prefix("$ ")?.to_string(), printed.to_string()))
    };
    blocks.filter_map(command).collect()
}

/// The folder of this program before all others.
fn search_path() -> OsString {
    let own = Path::new(env!("CARGO_BIN_EXE_fairleadow")).parent().expect("a folder").to_path_buf();
    let others = env::var_os("PATH").unwrap_or_default();
    env::join_paths([own].into_iter().chain(env::split_paths(&others))).expect("a search path")
}

/// What a shell prints for it, errors too.
fn printed(command: &str) -> String {
    let output = Command::new("sh")
        .args(["-c", &format!("({command}) 2>&1")])
        .current_dir(top())
        .env("PATH", search_path())
        .output()
        .expect("a shell");
    String::from_utf8(output.stdout).expect("text")
}

#[test]
fn each_command_prints_what_the_page_shows() {
    let page = fs::read_to_string(top().join("docs/CHARTS.md")).expect("the page");
    let commands = commands(&page);
    assert!(commands.len() >= 9);
    for (command, shown) in commands {
        assert_eq!(printed(&command), shown, "{command}");
    }
}

/// The outputs over time that the page draws are those of the ticks.
#[test]
fn the_picture_over_time_is_that_of_the_ticks() {
    let page = fs::read_to_string(top().join("docs/CHARTS.md")).expect("the page");
    let (_, picture) = page.split_once("```\ntick ").expect("a picture over time");
    let picture = picture.split("```").next().expect("its lines");
    let path = top().join("examples/swapped.txt");
    let plan = load(&path).and_then(Plan::read).expect("an example");
    let trace = trace(&plan, 32, &[0, 0, 4, 0, 0, 0, 0, 0], &[]).expect("an example");
    let lines: Vec<(&str, Vec<&str>)> = picture
        .lines()
        .skip(2)
        .filter_map(|line| {
            let (name, ticks) = line.split_once(' ')?;
            let ticks = ticks.trim_start();
            Some((name, (0..ticks.len() / 9).map(|tick| &ticks[9 * tick..9 * tick + 9]).collect()))
        })
        .collect();
    let outputs: Vec<&str> = lines.iter().map(|(name, _)| *name).filter(|name| *name != "valve").collect();
    assert_eq!(outputs, ["clamp", "spindle", "feed", "cutter_in", "cutter_back", "unclamp"]);
    for (name, ticks) in lines.iter().filter(|(name, _)| *name != "valve") {
        let on = |tick: &Tick| plan.operations(tick.mask).iter().any(|output| output == name);
        let wanted = trace.ticks.iter().map(|tick| if on(tick) { "#########" } else { "........." });
        assert!(ticks.iter().copied().eq(wanted), "{name}: {ticks:?}");
    }
}

/// The lines of the page's tables, each with its sum.
#[test]
fn each_line_that_the_page_explains_has_its_sum() {
    let page = fs::read_to_string(top().join("docs/CHARTS.md")).expect("the page");
    let quoted: Vec<&str> = page.split('`').skip(1).step_by(2).filter(|word| word.len() == 22).collect();
    let lines: Vec<&str> =
        quoted.into_iter().filter(|word| word.bytes().all(|b| b.is_ascii_hexdigit())).collect();
    assert!(lines.len() >= 7);
    let charts = ["bore", "full_stack", "roughing"].map(|name| format!("examples/{name}.chart"));
    let charts = charts.map(|chart| fs::read_to_string(top().join(chart)).expect("an example"));
    for line in lines {
        assert!(charts.iter().any(|chart| chart.lines().any(|own| own == line)), "{line}");
    }
}

/// Each file that a page for people leads to, by a link or as a picture, is there.
#[test]
fn each_link_leads_to_a_file() {
    for page in ["README.md", "docs/CHARTS.md", "examples/README.md"] {
        let page = top().join(page);
        let text = fs::read_to_string(&page).expect("the page");
        let links = text.split("](").skip(1).filter_map(|rest| rest.split([')', '#']).next());
        for link in links.filter(|link| !link.is_empty()) {
            let file = page.parent().expect("a folder").join(link);
            assert!(file.exists(), "{} of {}", link, page.display());
        }
    }
}

/// Each picture of the page is made by the command beside the pictures: the page on a screen, on a phone and on paper among them.
#[test]
fn each_picture_is_made_by_the_command() {
    let page = fs::read_to_string(top().join("docs/CHARTS.md")).expect("the page");
    let command = fs::read_to_string(top().join("docs/pictures/draw")).expect("the command");
    let shown: Vec<&str> =
        page.split("](pictures/").skip(1).filter_map(|rest| rest.split(')').next()).collect();
    assert_eq!(shown, ["bore.svg", "bore-traced.svg", "page.png", "phone.png", "paper.png", "workbench.png"]);
    for picture in shown {
        let made = format!("docs/pictures/{}", picture.strip_suffix(".png").unwrap_or(picture));
        assert!(command.contains(&made), "{picture}");
    }
}

//! The command wall: the sheet of all little charts, a part of it, one chart, and what is refused.

mod shared;

use office::source::from_notation;
use reference::little::texts;
use shared::{run, Ran};

/// What is printed where nothing is wrong.
fn printed(args: &[&str]) -> String {
    let Ran { printed, said, status } = run(args);
    assert_eq!((status, said.as_str()), (0, ""), "{args:?}");
    printed
}

const BEGINNING: &str = "\
Little charts: one scheme, no condition but x0, no output but y0, no results.
2 frames: 2 charts
3 frames: 18 charts
4 frames: 648 charts

2 frames, chart 0
  00010001000000000000FE    begin -> end
  01010000000000000000FE    end

2 frames, chart 1
  01010000000000000000FE    end
  00010000000000000000FF    begin -> end

3 frames, chart 0
  00010001000000000000FE      begin -> n1
  02010002000000000000FB  n1: do nothing -> end
  01010000000000000000FE      end
";

#[test]
fn the_sheet_has_every_little_chart() {
    let sheet = printed(&["wall"]);
    assert!(sheet.starts_with(BEGINNING), "{}", &sheet[..BEGINNING.len()]);
    let mut blocks = sheet.split("\n\n").skip(1);
    for frames in 2..=4 {
        for (chart, text) in texts(frames).iter().enumerate() {
            let block = blocks.next().expect("a block for each chart");
            let (title, lines) = block.split_once('\n').expect("a title");
            assert_eq!(title, format!("{frames} frames, chart {chart}"));
            hold_to_block(text, lines);
        }
    }
    assert_eq!(blocks.next(), None);
    assert_eq!(sheet.matches(", chart ").count(), 2 + 18 + 648);
}

/// The chart's lines stand on the left, and the notation on the right is composed to the same lines.
fn hold_to_block(text: &[u8], block: &str) {
    let pairs: Vec<(&str, &str)> =
        block.lines().map(|line| line[2..].split_once("  ").expect("a line and what it says")).collect();
    let lines: String = pairs.iter().map(|(line, _)| format!("{line}\n")).collect();
    assert_eq!(lines.as_bytes(), text);
    let nodes: String = pairs.iter().map(|(_, node)| format!("{node}\n")).collect();
    let source = from_notation(&format!("scheme 1\n{nodes}")).expect("the notation");
    assert_eq!(source.text, text);
}

#[test]
fn the_sheet_of_one_count_is_its_part() {
    let sheet = printed(&["wall"]);
    let parts = ["2", "3", "4"].map(|frames| printed(&["wall", frames]));
    let title = BEGINNING.lines().next().expect("a line");
    let counts = ["2 frames: 2 charts", "3 frames: 18 charts", "4 frames: 648 charts"];
    let blocks = |(part, count): (&String, &str)| {
        part.strip_prefix(&format!("{title}\n{count}\n")).expect("title and count").to_string()
    };
    let blocks: String = parts.iter().zip(counts).map(blocks).collect();
    assert_eq!(sheet, format!("{title}\n{}\n{blocks}", counts.join("\n")));
}

#[test]
fn one_chart_is_printed_as_its_lines() {
    for (frames, chart) in [(2, 0), (3, 17), (4, 0), (4, 323), (4, 647)] {
        let lines = printed(&["wall", &frames.to_string(), &chart.to_string()]);
        assert_eq!(lines.as_bytes(), texts(frames)[chart]);
    }
}

#[test]
fn what_is_not_there_is_refused() {
    for (args, place) in [
        (vec!["5"], "5 frames"),
        (vec!["1"], "1 frame"),
        (vec!["18446744073709551615"], "18,446,744,073,709,551,615 frames"),
        (vec!["3", "18"], "3 frames, chart 18"),
        (vec!["0", "0"], "0 frames, chart 0"),
    ] {
        let Ran { printed, said, status } = run(&[&["wall"], &args[..]].concat());
        assert_eq!((status, printed.as_str()), (1, ""));
        let words = format!(
            "{place}: there is no such little chart\n  refusal 24: little charts have 2, 3 or 4 frames"
        );
        assert!(said.starts_with(&words) && said.contains("\n  look for: "), "{said}");
    }
}

#[test]
fn a_wrong_call_is_told() {
    let usage = "usage: fairleadow wall [FRAMES [NUMBER]]\n";
    for (args, words) in [
        (vec!["two"], "two is no number"),
        (vec!["2", "x"], "x is no number"),
        (vec!["2", "0", "1"], "1 is one word more"),
        (vec!["--all"], "no option --all"),
    ] {
        let Ran { printed, said, status } = run(&[&["wall"], &args[..]].concat());
        assert_eq!((status, printed.as_str(), said), (2, "", format!("{words}\n{usage}")));
    }
}

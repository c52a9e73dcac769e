//! An image on the page, by labels and rows, and with the names of a chart.

use std::fs;
use std::path::Path;

use super::{all, one, texts, Told, TOP};

/// The words of a run of the patched image.
pub const PATCHED_WORDS: &str = "0,0,0x44,0,0,0";

/// An image is stepped by its labels, as its chart by its nodes.
pub fn images(told: &Told) {
    assert_eq!(one(told, "same ticks"), "true");
    assert_eq!(one(told, "drawn"), "7 2 2 10 2");
    assert_eq!(one(told, "image checked"), "accepted||true");
    let labels = [
        "0|e1|b1_0|home|||0 (End) of s1|s1at label 0 (End)",
        "1|l2|b2_0 l2_call|call of s2|y0||2 of s1|s1at label 2",
        "2|l4|l4_5 l4_5_asked l4_5_on|plain||l2|4 of s2|s2at label 4s1waits at label 2",
        "3|l5|b2_0 l5_call|call of s2|y0 y1 y2|l2|5 of s2|s2at label 5s1waits at label 2",
    ];
    assert_eq!(all(told, "label"), labels);
    assert_eq!(one(told, "label why"), "it left label 4 of scheme 2 and went to label 5 of scheme 2");
    assert_eq!(one(told, "label table"), "at label|label");
    let never = "17 ticks; every label and row was taken (7 labels, 6 rows)";
    assert_eq!(one(told, "label never"), never);
    assert_eq!(one(told, "label visited"), "16|l3");
    assert_eq!(one(told, "label price"), "17 ticks, to pay: 12 cents");
    let file = Path::new(TOP).join("examples/roughing.image");
    let image = fs::read(&file).expect("an example");
    assert_eq!(one(told, "image saved image").as_bytes(), image);
    let words = ["--words", "0,0,4,0,4,0,4,0,0,0,0,0,0,0,0,0,0"];
    let (_, waves, _) = texts::command(&[&["trace", "-", "--format", "vcd"], &words[..]].concat(), &image);
    assert_eq!(one(told, "image saved vcd"), waves.replacen("standard input", "roughing.image", 1));
    let save = ["--save", "-", "--expect"];
    let (_, scenario, _) = texts::command(&[&["trace", "-"], &words[..], &save].concat(), &image);
    // the first line tells what was run
    let lines = |text: &str| text.split_once('\n').map(|(_, lines)| lines.to_string());
    assert_eq!(lines(one(told, "image saved expecting")), lines(&scenario));
    let (_, list, _) = texts::command(&["show", "-"], &image);
    assert_eq!(one(told, "image saved laid_out"), list);
    let none = "0|this is an image: the lines of the chart that it was made of are not in it";
    assert_eq!(one(told, "image saved lines"), none);
    assert_eq!(one(told, "image played"), "passed, 4 ticks, 1 check|tick 3 of 3");
    let refused =
        "tick 3, word 0x0004, label 5 of scheme 2: the call of s2 finds the stack full, all 2 places in use";
    assert!(one(told, "image refused").starts_with(refused), "{}", one(told, "image refused"));
    assert!(one(told, "label left").contains("l4_1_asked") && !one(told, "label left").contains("l4_5"));
    assert_eq!(one(told, "image slip"), "line 11, column 21: the sum should be E6, not E7|false|1");
}

/// With the names of the chart that it was made of, an image that was patched since is told as the command tells it.
pub fn names(told: &Told) {
    assert_eq!(one(told, "no names for a chart"), "true");
    assert_eq!(one(told, "asked for names"), "false|true");
    let other = "refused|this is an image; its labels are not the chart's: label 2 says 'do y0; call s2', and the chart's 'call s2, read its result'|true";
    assert_eq!(one(told, "other labels"), other);
    assert!(one(told, "no chart").starts_with("refused|line 1, column 12: "), "{}", one(told, "no chart"));
    assert_eq!(one(told, "named"), "The image has this chart's names.||");
    assert_eq!(one(told, "named buttons"), "wood x6 x7");
    assert_eq!(one(told, "named lamps"), "spindle off feed off cutter_in off cutter_back on");
    assert_eq!(one(told, "named drawing"), "true|true");
    let at = |name: &str| Path::new(TOP).join("examples").join(name).display().to_string();
    let run = [&at("patched/roughing.image"), "--names", &at("roughing.txt"), "--words", PATCHED_WORDS];
    let print = |command: &str, more: &[&str]| texts::command(&[&[command], &run[..], more].concat(), b"").1;
    let traced = print("trace", &[]);
    assert_eq!(one(told, "named report"), traced.split_once("\n\n").expect("a heading").1);
    let waves = print("trace", &["--format", "vcd"]);
    assert_eq!(one(told, "named vcd").replacen("patched.image", "roughing.image", 1), waves);
    let lines = |text: &str| text.split_once('\n').map(|(_, lines)| lines.to_string());
    assert_eq!(lines(one(told, "named expecting")), lines(&print("trace", &["--save", "-", "--expect"])));
    let (_, list, _) = texts::command(&[&["show"], &run[..3]].concat(), b"");
    assert_eq!(one(told, "named laid_out"), list);
    assert_eq!(one(told, "named price"), "6 ticks, to pay: 3 cents");
    assert_eq!(one(told, "named scenario"), "passed, 4 ticks, 1 check");
    assert_eq!(one(told, "names of another"), "refused|");
    assert_eq!(one(told, "names again"), "|wood");
    assert_eq!(one(told, "hidden again"), "true");
}

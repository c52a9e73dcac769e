//! What is opened and saved, and what an address shows.

use std::fs;
use std::path::Path;

use super::{all, one, texts, Told, TOP};

pub fn scenarios(told: &Told) {
    let all = all(told, "scenario");
    assert!(all.len() == 10 && all.iter().all(|one| *one == "true|true|true"), "{all:?}");
    let played = "failed, 7 ticks, 1 check: 1 difference\n  line 3, tick 6, node end of drilling: expected node hole of drilling, and it is end of drilling|tick 6 of 6|2|refused";
    assert_eq!(one(told, "played"), played);
    assert_eq!(one(told, "left"), "no tick yet|32|refused stale");
    assert_eq!(one(told, "replaced"), "- * 2; expect nothing\ntick 1 of 1");
    assert_eq!(one(told, "had again"), "places 2|tick 6 of 6");
}

pub fn files(told: &Told) {
    let files: Vec<Vec<&str>> = all(told, "file").iter().map(|file| file.split('|').collect()).collect();
    assert!(files.len() == 8 && files.iter().all(|file| file[1] == "true"), "{files:?}");
    // what is no text is told of, and the text stays
    let kept: Vec<&str> = files.iter().filter(|file| file[2] == "true").map(|file| file[0]).collect();
    assert_eq!(kept, ["too long", "not UTF-8", "a picture", "zeros"]);
    let dropped = one(told, "two dropped");
    assert!(dropped.starts_with("home.txt|home.txt is open: accepted"), "{dropped}");
    assert!(dropped.ends_with("One file is opened at a time: the others were left."), "{dropped}");
    assert!(all(told, "broken").is_empty());
    assert_eq!(one(told, "repeated"), "true|true|false|0");
}

pub fn saved(told: &Told) {
    let example =
        |name: &str| fs::read_to_string(Path::new(TOP).join("examples").join(name)).expect("an example");
    for (what, file) in [("text", "bore.txt"), ("lines", "bore.chart"), ("image", "bore.image")] {
        assert_eq!(one(told, &format!("saved {what}")), example(file));
    }
    assert_eq!(one(told, "saved words"), "0\n0\n0\n");
    let bore = example("bore.txt");
    let (_, waves, _) =
        texts::command(&["trace", "-", "--words", "0,0,0", "--format", "vcd"], bore.as_bytes());
    assert_eq!(one(told, "saved vcd"), waves.replacen("standard input", "bore.txt", 1));
    assert_eq!(one(told, "places of an example"), "32|no tick yet");
    assert_eq!(one(told, "patched"), "true|true");
    let addresses = all(told, "address");
    assert_eq!(addresses.len(), 3);
    assert!(addresses[2].ends_with("|The address: there is no example none.txt"), "{}", addresses[2]);
    assert_eq!(addresses[0], "tick 2 of 3|2|4,4,4,0|");
    let wrong = "no tick yet|32||The words of the address: in the words bore*2,bor: ";
    assert!(addresses[1].starts_with(wrong) && addresses[1].contains("bore"), "{}", addresses[1]);
    assert!(one(told, "saved report").starts_with("tick  word    conditions at 1"));
    let picture = one(told, "saved picture");
    assert!(
        picture.starts_with("<svg xmlns=\"http://www.w3.org/2000/svg\"") && picture.contains("<style>svg")
    );
    assert_eq!(one(told, "violations"), "");
}

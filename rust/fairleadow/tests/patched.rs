//! The example of an image that was patched at the lathe (examples/patched): its ticks before and after, by the library and by the
//! reference.

use proved::Proved;
use reference::{fresh_state, Library, Reference};

const BEFORE: &str = include_str!("../../../examples/roughing.image");
const AFTER: &str = include_str!("../../../examples/patched/roughing.image");
const TICKS_BEFORE: &str = include_str!("../../../examples/patched/before.ticks");
const TICKS_AFTER: &str = include_str!("../../../examples/patched/after.ticks");

/// The words of a list of ticks.
fn words(ticks: &str) -> Vec<u16> {
    ticks.lines().map(|line| u16::from_str_radix(&line[..4], 16).expect("a word")).collect()
}

/// A line for each tick: its word, its code and its mask.
fn ticks(library: &dyn Library, image: &str, words: &[u16]) -> String {
    let (mut masks, mut codes) = (vec![0; words.len()], vec![0; words.len()]);
    let mut state = fresh_state(32).expect("a good size");
    let answer = library.run(image.as_bytes(), &mut state, words, &mut masks, &mut codes);
    assert_eq!(answer, Ok(words.len()));
    let line = |k: usize| format!("{:04X} {:02X} {:08X}\n", words[k], codes[k], masks[k]);
    (0..words.len()).map(line).collect()
}

#[test]
fn the_ticks_are_those_written_down() {
    for library in [&Reference as &dyn Library, &Proved] {
        for (image, written) in [(BEFORE, TICKS_BEFORE), (AFTER, TICKS_AFTER)] {
            assert_eq!(ticks(library, image, &words(written)), written);
        }
    }
}

#[test]
fn the_same_words_are_ticked_before_and_after() {
    assert_eq!(words(TICKS_BEFORE), words(TICKS_AFTER));
}

#[test]
fn the_patch_is_two_rows_and_their_count() {
    let added = ["12040084008402010000DF", "120400440044020600005A"];
    assert!(added.iter().all(|row| AFTER.lines().any(|line| line == *row)));
    let left: Vec<&str> = AFTER.lines().skip(1).filter(|line| !added.contains(line)).collect();
    let before: Vec<&str> = BEFORE.lines().skip(1).collect();
    assert_eq!(left, before);
}

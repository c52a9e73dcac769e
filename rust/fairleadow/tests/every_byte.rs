//! Damage at every byte: each character of chart P, of a chart with a handler, of their images and of the example charts, each
//! byte of their frames with the sums right again, and each character of the largest image.

use std::fs;
use std::path::Path;

use comparison::samples;
use proved::{Library, Proved};
use reference::entry::{self, translated};
use reference::frames::{text_of, Frame, CHARACTERS, IMAGE_TEXT};
use reference::fresh_state;

/// The words of the run that each damaged image is tried with.
const WORDS: [u16; 6] = [0, 0, 1, 0xFFFF, 0, 2];

fn hold_chart(text: &[u8]) {
    let (mut wanted, mut given) = (vec![0xAA; IMAGE_TEXT], vec![0xAA; IMAGE_TEXT]);
    let answers = (entry::translate(text, &mut wanted), Proved.translate(text, &mut given));
    assert_eq!(answers.0, answers.1, "{}", text.escape_ascii());
    assert!(wanted == given, "{}", text.escape_ascii());
}

fn hold_image(text: &[u8]) {
    (2..=3).for_each(|size| hold_run(text, size));
}

fn hold_run(text: &[u8], size: usize) {
    let state = fresh_state(size).expect("a good size");
    let (mut masks, mut codes) = ([7; WORDS.len()], [7; WORDS.len()]);
    let (mut after, mut given_after) = (state, state);
    let wanted = entry::run(text, &mut after, &WORDS, &mut masks, &mut codes);
    let (mut given_masks, mut given_codes) = ([7; WORDS.len()], [7; WORDS.len()]);
    let given = Proved.run(text, &mut given_after, &WORDS, &mut given_masks, &mut given_codes);
    let left = (given, given_after, given_masks, given_codes);
    assert_eq!((wanted, after, masks, codes), left, "{}", text.escape_ascii());
}

/// Every character becomes each of these in turn.
fn each_character(text: &[u8], characters: impl Fn(u8) -> Vec<u8>, hold: fn(&[u8])) {
    let mut damaged = text.to_vec();
    for at in 0..text.len() {
        for character in characters(text[at]) {
            damaged[at] = character;
            hold(&damaged);
        }
        damaged[at] = text[at];
    }
}

/// Every byte of every frame becomes each other one in turn; the sums are right.
fn each_byte(frames: &[Frame], hold: fn(&[u8])) {
    let mut damaged = frames.to_vec();
    for at in 0..frames.len() {
        for k in 0..10 {
            for byte in 0..=255 {
                damaged[at][k] = byte;
                hold(&text_of(&damaged));
            }
            damaged[at][k] = frames[at][k];
        }
    }
}

/// The frames of a text whose sums are right.
fn frames_of(text: &[u8]) -> Vec<Frame> {
    let digit = |character: u8| char::from(character).to_digit(16).expect("a digit") as u8;
    let byte = |line: &[u8], k: usize| 16 * digit(line[2 * k]) + digit(line[2 * k + 1]);
    text.chunks(CHARACTERS).map(|line| std::array::from_fn(|k| byte(line, k))).collect()
}

fn any_character(_: u8) -> Vec<u8> {
    (0..=255).collect()
}

fn each_of_chart_and_image(records: &[Frame]) {
    let image = translated(&text_of(records)).expect("a valid chart");
    each_character(&text_of(records), any_character, hold_chart);
    each_character(&image, any_character, hold_image);
    each_byte(records, hold_chart);
    each_byte(&frames_of(&image), hold_image);
}

#[test]
fn every_byte_of_chart_p_and_its_image() {
    each_of_chart_and_image(&samples::chart_p());
}

#[test]
fn every_byte_of_a_chart_with_a_handler_and_its_image() {
    each_of_chart_and_image(&samples::with_handler());
}

#[test]
fn every_byte_of_the_example_charts() {
    let folder = Path::new(env!("CARGO_MANIFEST_DIR")).join("../../examples");
    let mut charts = 0;
    for file in fs::read_dir(folder).expect("the examples") {
        let path = file.expect("a file").path();
        if path.extension().is_some_and(|extension| extension == "chart") {
            let chart = fs::read(&path).expect("a chart");
            each_character(&chart, any_character, hold_chart);
            each_byte(&frames_of(&chart), hold_chart);
            charts += 1;
        }
    }
    assert!(charts >= 4);
}

#[test]
fn every_character_of_the_largest_image() {
    let image = text_of(&samples::largest_image());
    assert_eq!(image.len(), IMAGE_TEXT);
    each_character(&image, |character| vec![character ^ 1, character ^ 16], hold_image);
}

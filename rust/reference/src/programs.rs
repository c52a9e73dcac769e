//! What the two programs print for what stands on their standard input.

use crate::answer::Refusal;
use crate::entry;
use crate::frames::{digits, line};
use crate::state::fresh_state;

/// The frame that tells a refusal.
fn refusal_line(refusal: Refusal) -> Vec<u8> {
    let [high, low] = (refusal.index() as u16).to_be_bytes();
    line(&[0xFF, refusal.number(), high, low, 0, 0, 0, 0, 0, 0])
}

/// The translator program.
pub fn translate(input: &[u8]) -> Vec<u8> {
    match entry::translated(input) {
        Ok(image) => image,
        Err(refusal) => refusal_line(refusal),
    }
}

/// The run program: words 0 to 63 from a fresh state of 32 places.
pub fn run(input: &[u8]) -> Vec<u8> {
    let words: Vec<u16> = (0..64).collect();
    let (mut masks, mut codes) = ([0; 64], [0; 64]);
    let mut state = fresh_state(32).expect("a good size");
    let answer = entry::run(input, &mut state, &words, &mut masks, &mut codes);
    let mut printed = Vec::new();
    for code in &codes[..answer.unwrap_or_else(Refusal::ticks)] {
        printed.extend(digits(*code));
        printed.push(b'\n');
    }
    if let Err(refusal) = answer {
        printed.extend(refusal_line(refusal));
    }
    printed
}

//! Refusal 23: a label that has no row, or two, for some word and bit.

use super::image::{Frame, Header};
use crate::problem::Problem;
use crate::wording;

const FUNCTION_CALL: u8 = 2;

/// The lowest such label, with a word and, where it calls a function, a result.
pub fn label(frames: &[Frame]) -> Option<Problem> {
    let header = Header::of(frames.first()?);
    (2..=header.last).find_map(|label| of_label(&header, frames, label as u8))
}

fn of_label(header: &Header, frames: &[Frame], label: u8) -> Option<Problem> {
    let calls = header.label(frames, label)?[2] == FUNCTION_CALL;
    let rows: Vec<(usize, &Frame)> =
        frames.iter().enumerate().skip(header.first_row()).filter(|(_, row)| row[1] == label).collect();
    let pair = |row: &Frame, at: usize| u16::from_be_bytes([row[at], row[at + 1]]);
    // a condition that no row of the label asks for changes nothing
    let asked = rows.iter().fold(0, |mask, (_, row)| mask | pair(row, 2));
    let mut word = 0u16;
    loop {
        for bit in 0..2 {
            let matches = |row: &Frame| word & pair(row, 2) == pair(row, 4) && (row[6] == 2 || row[6] == bit);
            let found: Vec<usize> =
                rows.iter().filter(|(_, row)| matches(row)).map(|(at, _)| at + 1).collect();
            let result = if calls { format!(" and result {bit}") } else { String::new() };
            let shown = wording::word(word);
            match found[..] {
                [_] => {}
                [] => {
                    let line = header.line_of(label);
                    let words = format!("line {line}: label {label} has no row for word {shown}{result}");
                    return Some(Problem::on(line, 1, words).advice(ADVICE));
                }
                [first, second, ..] => {
                    let rows = format!("two rows for word {shown}{result}, this and line {first}");
                    let words = format!("line {second}: label {label} has {rows}");
                    return Some(Problem::on(second, 1, words).advice(ADVICE));
                }
            }
        }
        word = word.wrapping_sub(asked) & asked;
        if word == 0 {
            return None;
        }
    }
}

const ADVICE: &str = "a row that was taken out of the image, put in or changed by hand; the image of a chart has just one for each word";

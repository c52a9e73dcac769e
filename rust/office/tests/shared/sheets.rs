//! Chart P of the paper and its image, how a fault is put into them, and how it is told.

use office::check::checked;

pub const CHART: &str = include_str!("../../../../examples/paper.chart");
pub const IMAGE: &str = include_str!("../../../../examples/paper.image");

/// A line of twenty digits with its sum.
pub fn summed(line: &str) -> String {
    let bytes = (0..10).map(|k| u8::from_str_radix(&line[2 * k..2 * k + 2], 16).expect("digits"));
    let sum = bytes.fold(0u8, |sum, byte| sum.wrapping_sub(byte));
    format!("{}{sum:02X}\n", &line[..20])
}

pub fn lines(records: &[&str]) -> String {
    records.iter().map(|record| summed(record)).collect()
}

/// The text with these digits at a line and a column, and its sums made right.
pub fn edited(text: &str, line: usize, column: usize, digits: &str) -> String {
    let edit = |(at, stands): (usize, &str)| {
        let mut stands = stands.to_string();
        if at + 1 == line {
            stands.replace_range(column - 1..column - 1 + digits.len(), digits);
        }
        summed(&stands)
    };
    text.lines().enumerate().map(edit).collect()
}

/// The refusal's number and the first line of its words.
pub fn told(text: impl AsRef<[u8]>) -> (u8, String) {
    let problem = checked(text.as_ref()).expect_err("a refusal");
    (problem.refusal.expect("a number").number(), problem.words)
}

/// Each text is refused with this number, in these words.
pub fn each(number: u8, cases: &[(String, &str)]) {
    for (text, words) in cases {
        assert_eq!(told(text), (number, words.to_string()), "{}", text.escape_debug());
    }
}

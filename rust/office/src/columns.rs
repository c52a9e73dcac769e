//! Tables in plain text.

use std::env;
use std::io::{self, IsTerminal};

/// What stands on top of the character before it: marks, joiners and signs of direction.
const NONE: [(u32, u32); 9] = [
    (0x0300, 0x036F),
    (0x1AB0, 0x1AFF),
    (0x1DC0, 0x1DFF),
    (0x200B, 0x200F),
    (0x202A, 0x202E),
    (0x2060, 0x2064),
    (0x20D0, 0x20FF),
    (0xFE00, 0xFE0F),
    (0xFE20, 0xFE2F),
];

/// What takes two columns of a terminal: the letters of East Asia, full-width forms and pictures.
const WIDE: [(u32, u32); 13] = [
    (0x1100, 0x115F),
    (0x2E80, 0x303E),
    (0x3041, 0x4DBF),
    (0x4E00, 0xA4CF),
    (0xA960, 0xA97F),
    (0xAC00, 0xD7A3),
    (0xF900, 0xFAFF),
    (0xFE30, 0xFE6F),
    (0xFF01, 0xFF60),
    (0xFFE0, 0xFFE6),
    (0x1F300, 0x1F64F),
    (0x1F900, 0x1F9FF),
    (0x20000, 0x3FFFD),
];

/// How many columns of a terminal a text takes.
pub fn width(text: &str) -> usize {
    // what a table mostly holds: nothing to look up
    if text.is_ascii() {
        return text.len();
    }
    let within =
        |ranges: &[(u32, u32)], code| ranges.iter().any(|(low, high)| (*low..=*high).contains(&code));
    let of_one = |character: char| match u32::from(character) {
        code if within(&NONE, code) => 0,
        code if within(&WIDE, code) => 2,
        _ => 1,
    };
    text.chars().map(of_one).sum()
}

/// How wide a terminal is where it does not say so.
const COLUMNS: usize = 80;

/// How to read a text on a terminal that is narrower; nothing where it fits, or goes elsewhere.
pub fn reading(text: &str) -> Option<String> {
    let told = env::var("COLUMNS").ok().and_then(|columns| columns.parse().ok());
    let widest = text.lines().map(width).max().unwrap_or(0);
    (io::stdout().is_terminal() && widest > told.unwrap_or(COLUMNS))
        .then(|| format!("(lines of up to {widest} columns: with `| less -S` they are not broken, and arrow keys move along)\n"))
}

/// Columns as wide as their widest cell, with two spaces between them; the cells of some columns, such as numbers, end under each other.
pub fn aligned<R: AsRef<[String]>>(rows: &[R], to_the_right: impl Fn(usize) -> bool) -> String {
    let wide = |text: &String| width(text);
    let columns = rows.iter().map(|row| row.as_ref().len()).max().unwrap_or(0);
    let widest =
        |column: usize| rows.iter().filter_map(|row| row.as_ref().get(column)).map(wide).max().unwrap_or(0);
    let widths: Vec<usize> = (0..columns).map(widest).collect();
    let cell = |(column, text): (usize, &String)| {
        // by hand: a width in a format has a highest number
        let room = " ".repeat(widths[column] - wide(text));
        if to_the_right(column) {
            room + text
        } else {
            text.clone() + &room
        }
    };
    let line = |row: &R| {
        let cells: Vec<String> = row.as_ref().iter().enumerate().map(cell).collect();
        format!("{}\n", cells.join("  ").trim_end())
    };
    rows.iter().map(line).collect()
}

#[cfg(test)]
mod tests {
    use super::*;

    #[test]
    fn a_text_is_as_wide_as_a_terminal_shows_it() {
        for (text, wanted) in [
            ("", 0),
            ("größe", 5),
            ("gro\u{308}ße", 5),
            ("木材", 4),
            ("ｗ１", 4),
            ("한", 2),
            ("a\u{200B}b", 2),
        ] {
            assert_eq!(width(text), wanted, "{text}");
        }
        let rows = [["木", "1"], ["abc", "2"]].map(|row| row.map(String::from));
        assert_eq!(aligned(&rows, |_| false), "木   1\nabc  2\n");
    }

    #[test]
    fn a_column_is_as_wide_as_its_widest_cell() {
        let rows = [["a", "1"], ["bc", "23"], ["", ""]].map(|row| row.map(String::from));
        assert_eq!(aligned(&rows, |column| column == 1), "a    1\nbc  23\n\n");
        let long = "w".repeat(100_000);
        let rows = [[long.clone(), "1".to_string()], ["a".to_string(), "2".to_string()]];
        assert_eq!(aligned(&rows, |_| false).lines().next(), Some(format!("{long}  1").as_str()));
    }
}

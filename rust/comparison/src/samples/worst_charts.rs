//! Charts constructed for the loops of the chart check and of the translator.

use super::{all_conditions, falling_conditions, Before, TOP};
use reference::frames::Frame;

/// The refusal of a circle is late where all conditions lead to one and the lowest on it is the last node: each of the others
/// is searched. Paths are long and many where ten numbers are met first and then met again by all other conditions.
pub fn worst_charts() -> Vec<(&'static str, Vec<Frame>)> {
    let ladder = |next: fn(u8) -> [u8; 2]| all_conditions(2, next);
    vec![
        (
            "ladder to its own circle, long arcs first",
            ladder(|at| [at.saturating_add(2), at.saturating_add(1)]),
        ),
        ("ladder to a circle of two", ladder(|at| if at < 254 { [at + 1, at + 2] } else { [at ^ 1; 2] })),
        ("line to its own circle, and to End", ladder(|at| [at.saturating_add(1), 1])),
        ("line to its own circle, End first", ladder(|at| [1, at.saturating_add(1)])),
        ("line to its own circle, and to the circle", ladder(|at| [at.saturating_add(1), TOP])),
        ("Begin before falling conditions with 10 numbers", falling_conditions(Before::Begin, 10)),
        ("Begin before falling conditions with 11 numbers", falling_conditions(Before::Begin, 11)),
        ("one number after ten", one_after_ten()),
        ("4 operations before one line of conditions", shared_line(4, 8)),
        ("32 operations before one line of conditions", shared_line(32, 5)),
    ]
}

/// Ten numbers, then the last of them in all other conditions.
fn one_after_ten() -> Vec<Frame> {
    let mut records = falling_conditions(Before::Begin, 10);
    for (at, record) in records.iter_mut().enumerate().skip(2) {
        record[2] = (TOP - at as u8).min(9);
    }
    records
}

/// So many operations, and a line of conditions that leads from each to End, or by its last conditions to an operation; each
/// operation has a row for each value of so many numbers.
fn shared_line(operations: u8, numbers: u8) -> Vec<Frame> {
    let line = TOP - operations;
    let mut records = vec![[0, 1, 0, line + 1, 0, 0, 0, 0, 0, 0], [1, 1, 0, 0, 0, 0, 0, 0, 0, 0]];
    for at in 2..=line {
        let (number, one) =
            if at < 2 + operations { (0, line + (at - 1)) } else { ((line - at) % numbers, at - 1) };
        records.push([3, 1, number, at - 1, one, 0, 0, 0, 0, 0]);
    }
    records.extend((0..operations).map(|_| [2, 1, 0, line, 0, 0, 0, 0, 0, 1]));
    records
}

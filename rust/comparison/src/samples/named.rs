//! All charts of the samples by name: large ones, long paths, and slow ones, most of which are refused.

use super::{longest_path, most_rows, most_schemes, one_label, operations, slow_charts, Before, TOP};
use reference::frames::Frame;

/// 256 nodes: Begin leads to an operation, this or Begin itself to the last of the conditions, and each of them to the node
/// before it; so many numbers in turn.
pub fn falling_conditions(before: Before, different: u8) -> Vec<Frame> {
    let first = match before {
        Before::Operation => TOP - 1,
        _ => TOP,
    };
    let mut records = vec![[0, 1, 0, TOP, 0, 0, 0, 0, 0, 0], [1, 1, 0, 0, 0, 0, 0, 0, 0, 0]];
    records.extend((2..=first).map(|at| [3, 1, at % different, at - 1, at - 1, 0, 0, 0, 0, 0]));
    if first < TOP {
        records.push([2, 1, 0, first, 0, 0, 0, 0, 0, 1]);
    }
    records
}

/// A function, then conditions with all sixteen numbers, the 0 side of each of which goes on, and one more with the first number: the
/// deepest paths, each walked from a path that goes on.
fn comb() -> Vec<Frame> {
    let mut records =
        vec![[0, 1, 0, 2, 0, 0, 0, 0, 0, 0], [1, 1, 0, 0, 0, 0, 0, 0, 0, 0], [4, 1, 2, 3, 3, 0, 0, 0, 0, 0]];
    records.extend((0..16).map(|number| [3, 1, number, number + 4, 1, 0, 0, 0, 0, 0]));
    records.extend([
        [3, 1, 0, 1, 1, 0, 0, 0, 0, 0],
        [0, 2, 0, 21, 0, 0, 0, 0, 0, 0],
        [1, 2, 0, 0, 0, 0, 0, 0, 0, 0],
    ]);
    records
}

pub fn named_charts() -> Vec<(String, Vec<Frame>)> {
    let mut all = vec![
        ("256 labels".to_string(), operations(254)),
        ("one label, 1,024 rows".to_string(), one_label()),
        ("229 labels, 1,024 rows".to_string(), most_rows()),
        ("16 schemes".to_string(), most_schemes()),
        ("comb of 16 conditions".to_string(), comb()),
    ];
    for (before, name) in
        [(Before::Begin, "Begin"), (Before::Operation, "operation"), (Before::Function, "function")]
    {
        for different in [1, 2, 8, 9, 10, 16] {
            let name = format!("{name} before conditions with {different} numbers");
            all.push((name, longest_path(before, different)));
        }
    }
    for different in [8, 9, 10] {
        let name = format!("falling conditions with {different} numbers");
        all.push((name, falling_conditions(Before::Operation, different)));
    }
    all.extend(slow_charts().into_iter().map(|slow| (slow.name.to_string(), slow.records)));
    all
}

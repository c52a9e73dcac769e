//! Charts with a chosen number of rows: operations and functions, each before a ladder of different conditions, both
//! arcs of each leading to the next. An operation before c conditions has 2^c rows, a function twice as many.

use super::Random;
use reference::frames::Frame;

/// A chart whose row count lies near the most that an image holds, often exactly there or one above.
pub fn chart(random: &mut Random) -> Vec<Frame> {
    let rows = match random.below(4) {
        0 => 1_024,
        1 => 1_025,
        2 => random.within(1_000, 1_048),
        _ => random.within(1, 1_500),
    };
    with_rows(random, rows)
}

/// A chart of two schemes with exactly so many rows, 1 to some 2,000; scheme 2 is Begin to End.
pub fn with_rows(random: &mut Random, rows: usize) -> Vec<Frame> {
    let mut records = vec![[0, 1, 0, 1, 0, 0, 0, 0, 0, 0]];
    let mut left = rows;
    while left > 0 {
        let most = left.ilog2() as usize;
        let exponent = if records.len() > 90 { most } else { random.within(0, most) };
        left -= 1 << exponent;
        segment(random, &mut records, exponent);
    }
    let at = records.len() as u8;
    records.push([1, 1, 0, 0, 0, 0, 0, 0, 0, 0]);
    records.push([0, 2, 0, at + 2, 0, 0, 0, 0, 0, 0]);
    records.push([1, 2, 0, 0, 0, 0, 0, 0, 0, 0]);
    records
}

/// One stop with 2^exponent rows and its ladder.
fn segment(random: &mut Random, records: &mut Vec<Frame>, exponent: usize) {
    let next = |records: &Vec<Frame>| records.len() as u8 + 1;
    let function = exponent > 0 && random.once_in(3);
    if function {
        records.push([4, 1, 2, next(records), next(records), 0, 0, 0, 0, 0]);
    } else {
        let called = random.pick(&[0, 2]);
        let result = random.below(3) as u8;
        records.push([2, 1, called, next(records), 0, result, 0, 0, 0, random.byte()]);
    }
    let numbers = random.order(16);
    for number in &numbers[..exponent - usize::from(function)] {
        records.push([3, 1, *number as u8, next(records), next(records), 0, 0, 0, 0, 0]);
    }
}

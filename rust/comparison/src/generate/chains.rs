//! Valid charts for the count of places: those of charts.rs, many of them with calls of later schemes only, so that they have
//! no circle of calls, and long chains.

use super::charts;
use super::Random;
use reference::frames::Frame;

/// The records of a chart that refusals 4 to 9 let pass.
pub fn chart(random: &mut Random) -> Vec<Frame> {
    if random.once_in(4) {
        return chain(random);
    }
    let mut records = charts::chart(random);
    if random.once_in(2) {
        call_later_schemes(random, &mut records);
    }
    records
}

/// Leads each call to the next scheme, or each to any later one. A function of the last scheme has none to call, and stays.
fn call_later_schemes(random: &mut Random, records: &mut [Frame]) {
    let schemes = records.iter().map(|record| record[1]).max().unwrap_or(0);
    let next_only = random.once_in(2);
    for record in records.iter_mut().filter(|record| matches!(record[0], 2 | 4) && record[2] != 0) {
        let next = record[1] + 1;
        let last = if next_only { next } else { schemes };
        match record[0] {
            _ if next <= schemes => record[2] = random.within(usize::from(next), usize::from(last)) as u8,
            2 => record[2] = 0,
            _ => {}
        }
    }
}

/// Each scheme calls the next; the last may call one of them, and may have too many rows.
fn chain(random: &mut Random) -> Vec<Frame> {
    let schemes = random.within(1, 16);
    let back = if schemes > 1 && random.once_in(4) { random.within(2, schemes) } else { 0 };
    let conditions = if random.once_in(4) { 11 } else { 0 };
    let mut records = Vec::new();
    for scheme in 1..schemes {
        caller(random, &mut records, scheme, scheme + 1, 0);
    }
    caller(random, &mut records, schemes, back, conditions);
    records
}

/// A scheme of one node that calls, or of an operation that does not, and of so many conditions after it.
fn caller(random: &mut Random, records: &mut Vec<Frame>, scheme: usize, called: usize, conditions: u8) {
    let (scheme, called) = (scheme as u8, called as u8);
    let first = records.len() as u8 + 1;
    records.push([0, scheme, 0, first, 0, 0, 0, 0, 0, 0]);
    if called != 0 && random.once_in(2) {
        records.push([4, scheme, called, first + 1, first + 1, 0, 0, 0, 0, 0]);
    } else {
        records.push([2, scheme, called, first + 1, 0, 0, 0, 0, 0, scheme]);
    }
    for number in 0..conditions {
        let next = first + number + 2;
        records.push([3, scheme, number, next, next, 0, 0, 0, 0, 0]);
    }
    records.push([1, scheme, 0, 0, 0, 0, 0, 0, 0, 0]);
}

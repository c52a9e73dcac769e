//! Damage to texts, to records and to image frames.

use super::Random;
use reference::frames::{Frame, CHARACTERS};

/// A copy with one to three faults.
fn damaged<T: Clone>(random: &mut Random, whole: &[T], fault: fn(&mut Random, &mut Vec<T>)) -> Vec<T> {
    let mut damaged = whole.to_vec();
    for _ in 0..random.pick(&[1, 1, 1, 2, 3]) {
        fault(random, &mut damaged);
    }
    damaged
}

/// A text with faults of transmission.
pub fn text(random: &mut Random, text: &[u8]) -> Vec<u8> {
    damaged(random, text, text_fault)
}

fn text_fault(random: &mut Random, text: &mut Vec<u8>) {
    if text.is_empty() {
        return;
    }
    let at = random.below(text.len());
    match random.below(12) {
        0 => text[at] = random.byte(),
        1 => text[at] ^= 1 << random.below(8),
        2..=4 => text[at] = random.pick(b"0123456789ABCDEF"),
        5 => text[at] = random.pick(b"\n\r Gg:/@`"),
        6 => text.insert(at, random.pick(b"0A\n")),
        7 => {
            text.remove(at);
        }
        8 => text.truncate(at),
        9 => text.truncate(at / CHARACTERS * CHARACTERS),
        10 => text.extend_from_within(at / CHARACTERS * CHARACTERS..),
        _ => *text = (0..random.below(400)).flat_map(|_| text.clone()).take(30_000).collect(),
    }
}

/// Faulty records; their sums will be right.
pub fn records(random: &mut Random, records: &[Frame]) -> Vec<Frame> {
    damaged(random, records, record_fault)
}

fn record_fault(random: &mut Random, records: &mut Vec<Frame>) {
    let count = records.len();
    let at = random.below(count);
    let other = random.below(count);
    let schemes = records.iter().map(|r| r[1]).max().unwrap_or(1);
    match random.below(16) {
        0 => records[at][random.below(10)] = random.byte(),
        1 => records[at][random.below(10)] ^= 1 << random.below(8),
        2 => records[at][0] = random.below(6) as u8,
        3 => records[at][1] = random.pick(&[0, 1, schemes, schemes.wrapping_add(1), 16, 17]),
        4 | 5 => records[at][2] = random.pick(&[0, 1, schemes, schemes.wrapping_add(1), 15, 16, 17]),
        6 => records[at][random.within(3, 4)] = random.pick(&[at, other, count, count - 1]) as u8,
        7 | 8 => redirect(random, records, at),
        9 | 10 => circle(random, records),
        11 => records[at] = records[other],
        12 => records.swap(at, other),
        13 | 14 => mark(random, records),
        _ if random.once_in(2) && count > 1 => {
            records.remove(at);
        }
        _ => records.insert(at, records[other]),
    }
}

/// Marks some Begins, that of scheme 1 too, or puts more into byte 2 than a mark.
fn mark(random: &mut Random, records: &mut [Frame]) {
    let begins = records.iter_mut().filter(|record| record[0] == 0);
    let mark = random.pick(&[1, 1, 1, 2, 255]);
    let times = random.within(1, 4);
    for begin in begins {
        if random.once_in(times) {
            begin[2] = mark;
        }
    }
}

/// Leads all arcs to a node to another node of its scheme instead: it is then often cut off.
fn redirect(random: &mut Random, records: &mut [Frame], at: usize) {
    let like = |r: &Frame| r[1] == records[at][1] && r[0] != 0;
    let others: Vec<usize> = (0..records.len()).filter(|v| like(&records[*v])).collect();
    if others.is_empty() {
        return;
    }
    let to = random.pick(&others) as u8;
    let from = at as u8;
    for record in records.iter_mut() {
        let arcs = match record[0] {
            0 | 2 => 3..4,
            3 | 4 => 3..5,
            _ => 3..3,
        };
        record[arcs].iter_mut().filter(|b| **b == from).for_each(|b| *b = to);
    }
}

/// Leads an arc of a condition to a condition of its scheme: often a circle.
fn circle(random: &mut Random, records: &mut [Frame]) {
    let conditions: Vec<usize> = (0..records.len()).filter(|v| records[*v][0] == 3).collect();
    if conditions.is_empty() {
        return;
    }
    let at = random.pick(&conditions);
    let alike = |v: &&usize| records[**v][1] == records[at][1];
    let targets: Vec<usize> = conditions.iter().filter(alike).copied().collect();
    records[at][random.within(3, 4)] = random.pick(&targets) as u8;
}

/// Faulty image frames; their sums will be right.
pub fn image(random: &mut Random, frames: &[Frame]) -> Vec<Frame> {
    damaged(random, frames, image_fault)
}

fn image_fault(random: &mut Random, frames: &mut Vec<Frame>) {
    let count = frames.len();
    let schemes = usize::from(frames[0][1]);
    let last = frames[0][2];
    let entry = random.within(1, schemes.max(1)).min(count - 1);
    let label = random.within(schemes + 1, schemes + 1 + usize::from(last)).min(count - 1);
    let row = (schemes + 2 + usize::from(last)).min(count - 1);
    let row = random.within(row, count - 1);
    let any = random.below(count);
    let number = random.pick(&[0, 1, 2, 3, last, last.wrapping_add(1), schemes as u8, (schemes + 1) as u8]);
    match random.below(17) {
        0 => frames[0][random.below(10)] = number,
        1 => frames[0][random.below(5)] = random.byte(),
        2 => frames[any][0] = random.pick(&[0x0F, 0x10, 0x11, 0x12, 0x13]),
        3 => frames[any][1] = number,
        4 => frames[any][random.below(10)] = random.byte(),
        5 | 6 => frames[entry][random.within(2, 4)] = number,
        7..=9 => frames[label][random.within(2, 5)] = number,
        10 => frames[row][random.within(2, 9)] ^= 1 << random.below(8),
        11 => frames[row][1] = number,
        12 => frames[row][random.within(6, 7)] = number,
        13 => frames.swap(any, row),
        14 => frames[any] = frames[row],
        15 => frames[0][5] = number,
        _ if random.once_in(2) && count > 1 => {
            frames.remove(any);
        }
        _ => frames.insert(any, frames[row]),
    }
}

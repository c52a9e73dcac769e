//! Tables for live runs and ticks: prepared ones, the same with faults, cut off or with more behind them, and bytes that
//! were never a table.

use super::{images, runs, states, Random};
use reference::frames::Frame;
use reference::image::Image;
use reference::live::Held;
use reference::prepare::table_of;
use reference::state::State;

/// The bytes of a buffer that is lent as a table, and a state for the image that they hold, fitting or not.
pub fn table_and_state(random: &mut Random) -> (Vec<u8>, State) {
    let image = if random.once_in(2) { images::small(random) } else { images::accepted(random) };
    let mut bytes = table(random, &image);
    if random.once_in(3) {
        follow(random, &mut bytes);
    }
    let held = Held::of(&bytes);
    let state = states::state(random, held.as_ref().map_or(image.shape(), Held::shape));
    (bytes, state)
}

/// What is made of an image: its table most often, or one that is somehow at fault.
fn table(random: &mut Random, image: &Image) -> Vec<u8> {
    let mut frames = table_of(image);
    match random.below(12) {
        0 | 1 => frames.concat(),
        2..=7 => {
            for _ in 0..random.pick(&[1, 1, 2, 4, 8, 16]) {
                fault(random, &mut frames);
            }
            frames.concat()
        }
        8 => cut(random, frames.concat()),
        9 => scattered(random, frames.concat()),
        10 => below_header(random),
        _ => {
            let length = random.below(300);
            runs::bytes(random, length)
        }
    }
}

/// More behind the table than belongs to it: anything, or frames that would do as rows.
fn follow(random: &mut Random, bytes: &mut Vec<u8>) {
    let count = random.within(1, 60);
    if random.once_in(2) || bytes.len() < 10 {
        bytes.extend(runs::bytes(random, count));
    } else {
        let next = random.pick(&[0, 1, 2, 3]);
        bytes.extend([0x12, 2, 0, 0, 0, 0, 2, next, 0, 0].iter().cycle().take(count));
    }
}

/// Cut off anywhere, or somewhere in the last frame.
fn cut(random: &mut Random, mut bytes: Vec<u8>) -> Vec<u8> {
    let length = bytes.len();
    let left = if random.once_in(2) { random.below(length) } else { length - random.within(1, 10) };
    bytes.truncate(left);
    bytes
}

/// Any bytes at any places, but not in the header.
fn scattered(random: &mut Random, mut bytes: Vec<u8>) -> Vec<u8> {
    for _ in 0..random.within(1, 40) {
        let at = random.within(10, bytes.len() - 1);
        bytes[at] = random.byte();
    }
    bytes
}

/// A header in order, and any bytes below it, most of them small.
fn below_header(random: &mut Random) -> Vec<u8> {
    let (schemes, last, rows) = (random.within(1, 16), random.within(1, 30), random.below(40));
    let handler = images::handler(random, schemes);
    let mut bytes = vec![random.byte(), schemes as u8, last as u8, 0, rows as u8, handler];
    let small = random.pick(&[3, 20, 60]);
    while bytes.len() < 10 * (2 + schemes + last + rows) {
        let byte = if random.once_in(8) { random.byte() } else { random.below(small) as u8 };
        bytes.push(byte);
    }
    bytes
}

/// Changes a byte or two where it may matter.
fn fault(random: &mut Random, frames: &mut [Frame]) {
    let count = frames.len();
    let (schemes, last) = (frames[0][1], frames[0][2]);
    let any = random.below(count);
    let entry = random.within(1, usize::from(schemes).max(1)).min(count - 1);
    let first_label = (1 + usize::from(schemes)).min(count - 1);
    let first_row = (first_label + usize::from(last) + 1).min(count - 1);
    let label = random.within(first_label, first_row - usize::from(first_row > first_label));
    let row = random.within(first_row, count - 1);
    let scheme = random.pick(&[0, 1, 2, 16, 17, 255, schemes, schemes.wrapping_add(1)]);
    let target = random.pick(&[0, 0, 1, 1, 2, last, last.wrapping_add(1), 255]);
    match random.below(19) {
        0 if random.once_in(4) => frames[0][random.within(1, 5)] = random.pick(&[0, 1, 2, 4, 5, 16, 17, 255]),
        0 => frames[0][random.pick(&[0, 6, 7, 8, 9])] = random.byte(),
        1 => frames[label][5] = random.pick(&[0, 1, 2, 3, 255]),
        2 => frames[any][random.below(10)] = random.byte(),
        3 => frames[any][random.below(10)] ^= 1 << random.below(8),
        4..=6 => {
            let at =
                random.pick(&[0, 1, first_label, first_row, row, any, count - 1, count, count + 3, 65_535]);
            frames[label][..2].copy_from_slice(&(at as u16).to_le_bytes());
        }
        7 | 8 => frames[label][2] = random.pick(&[0, 1, 2, 3, 4, 255]),
        9 => frames[label][3] = scheme,
        10 => frames[label][4] = scheme,
        11 => frames[label][3] = frames[label][4],
        12 => frames[label][5] = random.pick(&[0, 1, 2, 3, 255]),
        13 => frames[entry][2] = target,
        14 => frames[row][6] = random.pick(&[0, 1, 2, 3, 255]),
        15 | 16 => frames[row][7] = target,
        17 => frames[0][5] = if random.once_in(8) { scheme } else { images::handler(random, schemes.into()) },
        _ => frames[row][2..6].fill(random.pick(&[0, 0, 1, 255])),
    }
}

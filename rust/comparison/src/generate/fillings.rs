//! Over which lists of words it is counted how often the stack fills, and charts and images that fill it by some of them.

use super::{images, Random};
use interface::{CONDITIONS, COUNTED_BITS, COUNTED_TICKS};
use reference::check::chart_of;
use reference::frames::Frame;
use reference::image::Image;
use reference::translator;

/// What is added to a number so that it is small again where it is cut.
const CUT: [usize; 4] = [256, 65_536, 1 << 32, usize::MAX - 20];

/// A stack's size, how many ticks and how many conditions: mostly such as are counted, on few places; else right beside what is
/// counted, or large.
pub fn asked(random: &mut Random) -> (usize, usize, usize) {
    let size = match random.below(16) {
        0 => random.pick(&[0, 33, 256, 257, 258, usize::MAX]),
        1 => random.within(1, 32),
        2 => 32,
        _ => random.within(1, 3),
    };
    let (ticks, conditions) = match random.below(40) {
        0 => (COUNTED_TICKS, 0),
        1 => (random.within(COUNTED_TICKS - 1, COUNTED_TICKS + 2), random.below(2)),
        2 => (0, random.pick(&[CONDITIONS, CONDITIONS + 1, CONDITIONS + 2, 255, usize::MAX])),
        3 => (random.below(4), random.within(1, 4) + random.pick(&CUT)),
        4 => (random.within(1, 6) + random.pick(&CUT), random.below(3)),
        // products that wrap to 0 or 2, and any
        5 => {
            random.pick(&[(1 << 63, 2), (1 << 60, 16), ((1 << 63) + 1, 2), (2, 1 << 63), (1 << 32, 1 << 32)])
        }
        6 => (random.number() as usize, random.number() as usize),
        7 => random.pick(&[(17, 1), (9, 2), (6, 3), (5, 4), (2, 9), (1, 17), (2, 16)]),
        8 => random.pick(&[(COUNTED_BITS, 1), (8, 2), (5, 3), (4, 4), (2, 8), (1, CONDITIONS)]),
        9 | 10 => (random.below(300), 0),
        11 => (0, random.below(17)),
        12..=23 => (random.within(6, 12), 1),
        24..=33 => (random.within(4, 6), 2),
        34..=37 => (random.within(3, 4), 3),
        _ => (random.within(1, 3), random.within(1, 4)),
    };
    (size, ticks, conditions)
}

/// An image that is accepted, most often: any, one of few labels, or that of a chart that forks before each call.
pub fn image(random: &mut Random) -> Image {
    match random.below(8) {
        0 | 1 => images::accepted(random),
        2 => images::small(random),
        _ => {
            let chart = chart_of(&forks(random)).expect("a valid chart");
            let mut image = translator::image_of(&chart).expect("few rows");
            if random.once_in(2) {
                image.rows.remove(random.below(image.rows.len()));
            }
            image
        }
    }
}

/// A chart of two schemes or more in which a condition of 0 to 2 leads to a call or to the End; half of them have a handler.
pub fn forks(random: &mut Random) -> Vec<Frame> {
    let schemes = random.within(2, 4);
    let handler = images::handler(random, schemes);
    let mut records = Vec::new();
    for scheme in 1..=schemes as u8 {
        let begin = records.len() as u8;
        let [condition, call, end] = [begin + 1, begin + 2, begin + 3];
        let number = random.pick(&[0, 0, 1, 2]);
        let [on0, on1] = random.pick(&[[end, call], [call, end]]);
        let (called, after) = (random.within(2, schemes) as u8, random.pick(&[end, condition, call]));
        records.push([0, scheme, u8::from(scheme == handler), condition, 0, 0, 0, 0, 0, 0]);
        records.push([3, scheme, number, on0, on1, 0, 0, 0, 0, 0]);
        if random.once_in(3) {
            records.push([4, scheme, called, after, end, 0, 0, 0, 0, 0]);
        } else {
            records.push([2, scheme, called, after, 0, random.below(3) as u8, 0, 0, 0, scheme]);
        }
        records.push([1, scheme, 0, 0, 0, 0, 0, 0, 0, 0]);
    }
    records
}

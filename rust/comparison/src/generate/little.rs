//! Which little chart is asked for.

use super::Random;
use reference::little::texts;

/// What is added to a number so that it is small again where it is cut.
const CUT: [usize; 4] = [256, 65_536, 1 << 32, usize::MAX - 1_000];

/// A frame count, mostly one that there is, and a number, mostly one that there is of that count, or one beside the last.
pub fn asked(random: &mut Random) -> (usize, usize) {
    let frames = match random.below(16) {
        0 => random.pick(&[0, 1, 5, 255, usize::MAX]),
        1 => random.within(2, 4) + random.pick(&CUT),
        2 => random.number() as usize,
        3 => 2,
        4 | 5 => 3,
        _ => 4,
    };
    let count = texts(frames).len();
    let number = match random.below(16) {
        0 => count + random.below(3),
        1 => count.saturating_sub(1),
        2 => random.below(count.max(1)) + random.pick(&CUT),
        3 => random.number() as usize,
        4 => random.below(700),
        _ => random.below(count.max(1)),
    };
    (frames, number)
}

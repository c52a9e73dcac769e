//! Words, buffers, rebindings, and lists of runs and rebindings.

use super::{prices, Random};
use interface::PRICED_WORDS;
use reference::expectation::{Run, Step};

/// So many words: any, of few conditions, or the same again and again.
pub fn words(random: &mut Random, count: usize) -> Vec<u16> {
    let manner = random.below(5);
    let mut word = 0;
    let mut words = Vec::new();
    for _ in 0..count {
        word = match manner {
            0 => random.number() as u16,
            1 => random.below(8) as u16,
            2 => 0,
            3 => 0xFFFF,
            _ if random.once_in(4) => random.number() as u16,
            _ => word,
        };
        words.push(word);
    }
    words
}

/// How long a buffer is lent where so much is needed: mostly enough.
pub fn room(random: &mut Random, needed: usize) -> usize {
    match random.below(12) {
        0 => needed.saturating_sub(1),
        1 => random.below(needed + 1),
        2 | 3 => needed,
        _ => needed + random.below(40),
    }
}

/// A buffer of bytes, filled with anything.
pub fn bytes(random: &mut Random, length: usize) -> Vec<u8> {
    (0..length).map(|_| random.byte()).collect()
}

/// A run with its buffers.
pub fn run(random: &mut Random, count: usize) -> Run {
    let (masks, codes) = (room(random, count), room(random, count));
    Run {
        words: words(random, count),
        masks: (0..masks).map(|_| random.number() as u32).collect(),
        codes: bytes(random, codes),
        prices: None,
    }
}

/// A number and the scheme that is to serve it, where there are so many schemes: mostly such as can be called, or any up to 20, or
/// large ones, some of which are small again where they are cut.
pub fn rebinding(random: &mut Random, schemes: usize) -> (usize, usize) {
    let mut number = || match random.below(12) {
        0 => random.below(21),
        1 => random.pick(&[0, 1, 16, 17, schemes + 1]),
        2 => random.within(2, 16) + random.pick(&[256, 65_536, 1 << 32, usize::MAX - 20]),
        _ => random.within(2, schemes.max(2)),
    };
    (number(), number())
}

/// A list of runs, some with no words, some with too little room, some of one word, some priced, of these a few with too many words; in
/// most lists there are rebindings among them, more of them in front.
pub fn list(random: &mut Random, schemes: usize) -> Vec<Step> {
    let most = random.pick(&[1, 3, 20, 80]);
    let count = random.within(0, 12);
    let swaps = !random.once_in(3);
    (0..count)
        .map(|k| {
            if swaps && random.below(4) < if k < 3 { 3 } else { 1 } {
                let (number, scheme) = rebinding(random, schemes);
                return Step::Rebind(number, scheme);
            }
            let words = if random.once_in(8) { 0 } else { random.within(0, most) };
            let prices = random.once_in(3).then(|| prices::list(random));
            let run = run(random, words);
            if prices.is_some() && random.once_in(40) {
                return Step::Run(Run { words: vec![0; PRICED_WORDS + 1], prices, ..run });
            }
            Step::Run(Run { prices, ..run })
        })
        .collect()
}

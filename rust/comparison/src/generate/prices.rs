//! Price lists, and such that make the sum of given masks end as it is wanted.

use super::Random;
use reference::price::{hundredths, Prices};

/// Any price list: random prices, few or small ones, all the same, all the largest or all 0, each by turns.
pub fn list(random: &mut Random) -> Prices {
    let manner = random.below(8);
    let one = random.number() as u16;
    std::array::from_fn(|_| match manner {
        0 => u16::MAX,
        1 => 0,
        2 => one,
        3 if random.once_in(8) => random.number() as u16,
        3 => 0,
        4 => random.below(100) as u16,
        _ => random.number() as u16,
    })
}

/// The list with one price changed so that the hundredths of these masks end in the ones wanted, where one price can do that.
pub fn ending(random: &mut Random, prices: &Prices, masks: &[u32], wanted: u64) -> Option<Prices> {
    let bits = random.order(prices.len());
    let first = random.below(100) as u16;
    bits.into_iter().find_map(|bit| {
        let changed = |price: u16| {
            let mut prices = *prices;
            prices[bit] = price;
            prices
        };
        let ends = |prices: &Prices| hundredths(prices, masks) % 100 == wanted;
        if !masks.iter().any(|mask| mask >> bit & 1 == 1) {
            return None;
        }
        (0..100).map(|step| changed((first + step) % 100)).find(ends)
    })
}

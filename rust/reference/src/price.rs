//! The price of a run: every set bit of every mask that its finished ticks put out, by a price list.

pub use interface::{Prices, PRICED_WORDS};

/// What the bits of one mask cost, in hundredths of a cent.
pub fn mask_price(prices: &Prices, mask: u32) -> u64 {
    let set = prices.iter().enumerate().filter(|(bit, _)| mask & (1 << bit) != 0);
    set.map(|(_, price)| u64::from(*price)).sum()
}

/// The same for all of these masks.
pub fn hundredths(prices: &Prices, masks: &[u32]) -> u64 {
    masks.iter().map(|mask| mask_price(prices, *mask)).sum()
}

/// Whole cents, halves upward.
pub fn cents(hundredths: u64) -> u64 {
    hundredths / 100 + u64::from(hundredths % 100 >= 50)
}

/// The price of finished ticks, by their masks.
pub fn price(prices: &Prices, masks: &[u32]) -> u64 {
    cents(hundredths(prices, masks))
}

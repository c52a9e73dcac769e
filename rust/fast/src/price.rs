//! Priced runs: the bits of each mask are taken off one by one, the lowest first.

use super::machine::Machine;
use interface::PRICED_WORDS;
use reference::answer::Refusal;
use reference::library::{PricedReport, Prices};
use reference::state::State;

fn hundredths(prices: &Prices, masks: &[u32]) -> u64 {
    let mut sum = 0;
    for mask in masks {
        let mut left = *mask;
        while left != 0 {
            sum += u64::from(prices[left.trailing_zeros() as usize]);
            left &= left - 1;
        }
    }
    sum
}

impl<const SCANS: bool> Machine<SCANS> {
    /// Refusals 15, 27 and 16 to 18, and the price of the ticks made.
    pub fn priced_run(
        &self,
        state: &mut State,
        prices: &Prices,
        words: &[u16],
        masks: &mut [u32],
        codes: &mut [u8],
    ) -> PricedReport {
        if words.len() > PRICED_WORDS && self.fits(state) {
            return PricedReport { answer: Err(Refusal::ManyWords), price: 0 };
        }
        let answer = self.run(state, words, masks, codes);
        let finished = &masks[..answer.unwrap_or_else(Refusal::ticks)];
        PricedReport { answer, price: (hundredths(prices, finished) + 50) / 100 }
    }
}

//! Libraries that price a run in one wrong way each: the comparison must find every one.

#[macro_use]
mod common;

use std::cell::Cell;

use common::is_found;
use reference::answer::refuse_if;
use reference::entry::{self, image_from_text};
use reference::machine;
use reference::price::{cents, hundredths, mask_price, PRICED_WORDS};
use reference::{as_the_reference, Library, PricedReport, Prices, Refusal, State, Told};

faults! {
    // what is summed
    TakesBit0AsTheHighest,
    ForgetsTheLastBit,
    PricesATickOnceWhateverItsBits,
    PricesTheRefusedTick,
    ForgetsTheLastTick,
    PricesTheWholeBuffer,
    PricesTheMasksBeforeTheRun,
    PricesTheCodes,
    PricesEqualMasksOnce,
    LetsFreeTicksCost,
    TakesTheLowByteOfAPrice,
    TakesPricesForSigned,
    SumsIn32Bits,
    // how it is rounded
    RoundsEachTick,
    RoundsEachOperation,
    RoundsHalvesDown,
    RoundsDown,
    RoundsUp,
    TellsHundredths,
    // refusals
    Tries27After16,
    Tries27Before15,
    Tries27BeforeTheImage,
    TriesNo27,
    Takes65535WordsAtMost,
    Takes65537Words,
    TriesTheRoomFor27,
    RunsTheFirst65536Words,
    // the price with a refusal
    NoPriceWith17,
    NoPriceWith18,
    KeepsThePriceFromBefore,
    // what a run does
    KeepsTheState,
    WritesNoCodes,
    WritesMasksPastTheCount,
}

/// The reference with one fault, and the price that it told last.
struct Faulty {
    fault: Fault,
    last: Cell<u64>,
}

/// The sum of some numbers for each bit.
fn each_bit(prices: &Prices, masks: &[u32], sum: impl Fn(u64) -> u64) -> u64 {
    let ticks = |bit: usize| masks.iter().filter(|mask| **mask >> bit & 1 == 1).count() as u64;
    (0..32).map(|bit| sum(u64::from(prices[bit]) * ticks(bit))).sum()
}

/// The mask of the tick that a state would make.
fn next_mask(text: &[u8], state: &State) -> u32 {
    let image = image_from_text(text).expect("it was run");
    image.labels[usize::from(state.places[usize::from(state.depth) - 1])].mask
}

impl Faulty {
    /// The most words that are not refused with 27.
    fn most(&self) -> usize {
        match self.fault {
            Takes65535WordsAtMost => PRICED_WORDS - 1,
            Takes65537Words => PRICED_WORDS + 1,
            TriesNo27 => usize::MAX,
            _ => PRICED_WORDS,
        }
    }

    /// What is tried before the ticks, in this library's order.
    fn tried(&self, text: &[u8], state: &State, words: usize, room: usize) -> Result<(), Refusal> {
        let many = match self.fault {
            TriesTheRoomFor27 => words.min(room) > self.most(),
            RunsTheFirst65536Words => false,
            _ => words > self.most(),
        };
        if self.fault == Tries27BeforeTheImage && many {
            return Err(Refusal::ManyWords);
        }
        let image = image_from_text(text)?;
        let (fits, short) = (machine::fits(&image, state), room < words);
        refuse_if(Refusal::ManyWords, self.fault == Tries27Before15 && many)?;
        refuse_if(Refusal::Unfit, !fits)?;
        refuse_if(Refusal::NoRoom, self.fault == Tries27After16 && short)?;
        refuse_if(Refusal::ManyWords, many)?;
        refuse_if(Refusal::NoRoom, short)
    }

    /// The prices as this library takes them.
    fn taken(&self, prices: &Prices) -> Prices {
        let mut taken = *prices;
        match self.fault {
            TakesBit0AsTheHighest => taken.reverse(),
            ForgetsTheLastBit => taken[31] = 0,
            TakesTheLowByteOfAPrice => taken.iter_mut().for_each(|price| *price &= 0xFF),
            _ => {}
        }
        taken
    }

    /// The price of the finished ticks.
    fn price(&self, prices: &Prices, finished: &[u32]) -> u64 {
        let list = &self.taken(prices);
        let sum = hundredths(list, finished);
        match self.fault {
            RoundsEachTick => finished.iter().map(|mask| cents(mask_price(list, *mask))).sum(),
            RoundsEachOperation => each_bit(list, finished, cents),
            RoundsHalvesDown => (sum + 49) / 100,
            RoundsDown => sum / 100,
            RoundsUp => sum.div_ceil(100),
            TellsHundredths => sum,
            SumsIn32Bits => cents(u64::from(sum as u32)),
            TakesPricesForSigned => {
                let price = |bit: usize| i64::from(list[bit] as i16);
                let ticks = |bit: usize| finished.iter().filter(|mask| **mask >> bit & 1 == 1).count() as i64;
                let sum: i64 = (0..32).map(|bit| price(bit) * ticks(bit)).sum();
                (sum + 50).div_euclid(100) as u64
            }
            PricesATickOnceWhateverItsBits => {
                let first = |mask: &u32| mask_price(list, mask & mask.wrapping_neg());
                cents(finished.iter().map(first).sum())
            }
            LetsFreeTicksCost => {
                let free = finished.iter().filter(|mask| **mask == 0).count() as u64;
                cents(sum + free * u64::from(list[0]))
            }
            PricesEqualMasksOnce => {
                let mut different = finished.to_vec();
                different.dedup();
                cents(hundredths(list, &different))
            }
            _ => cents(sum),
        }
    }
}

impl Library for Faulty {
    as_the_reference!(chart_calls, image_calls, run, live_run, rebindings, spins, value_calls);

    fn priced_run(
        &self,
        image: &[u8],
        state: &mut State,
        prices: &Prices,
        words: &[u16],
        masks: &mut [u32],
        codes: &mut [u8],
    ) -> PricedReport {
        let words = match self.fault {
            RunsTheFirst65536Words => &words[..words.len().min(PRICED_WORDS)],
            _ => words,
        };
        if let Err(refusal) = self.tried(image, state, words.len(), masks.len().min(codes.len())) {
            let price = if self.fault == KeepsThePriceFromBefore { self.last.get() } else { 0 };
            return PricedReport { answer: Err(refusal), price };
        }
        let (start, before) = (*state, masks.to_vec());
        let answer = entry::run(image, state, words, masks, codes);
        let count = answer.unwrap_or_else(Refusal::ticks);
        let finished = match self.fault {
            PricesTheWholeBuffer => masks.to_vec(),
            PricesTheMasksBeforeTheRun => before[..count].to_vec(),
            PricesTheCodes => codes[..count].iter().map(|code| u32::from(*code)).collect(),
            ForgetsTheLastTick => masks[..count.saturating_sub(1)].to_vec(),
            PricesTheRefusedTick if count < words.len() => {
                [&masks[..count], &[next_mask(image, state)]].concat()
            }
            _ => masks[..count].to_vec(),
        };
        let price = match (self.fault, answer.number()) {
            (NoPriceWith17, 17) | (NoPriceWith18, 18) => 0,
            _ => self.price(prices, &finished),
        };
        match self.fault {
            WritesNoCodes => codes[..count].fill(0),
            WritesMasksPastTheCount => masks.iter_mut().skip(count).take(1).for_each(|mask| *mask = !*mask),
            _ => {}
        }
        self.last.set(price);
        if self.fault == KeepsTheState {
            *state = start;
        }
        PricedReport { answer, price }
    }
}

#[test]
fn every_fault_is_found() {
    for &fault in FAULTS {
        is_found(format_args!("{fault:?}"), &Faulty { fault, last: Cell::new(0) }, 20_000);
    }
}

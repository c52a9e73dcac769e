//! What a dry run costs: the ticks of each output by a price list, and the library's price of the whole run.

pub mod prices;

use fairleadow::{Answer, Library, Prices, Proved, Refusal, OPERATIONS};

use crate::columns::aligned;
use crate::names::Names;
use crate::problem::{counted, thousands, Problem};
use crate::subject::Subject;
use crate::trace::fresh;
use crate::trace::swaps::{self, Swap};

/// A priced run from a fresh state: its answer, the masks of the ticks made, and its parts. The library prices runs in which nothing is
/// swapped: a run with swaps has a part from each to the next, each with a price of its own.
pub struct Bill {
    pub answer: Answer,
    masks: Vec<u32>,
    prices: Prices,
    parts: Vec<Part>,
}

/// Ticks between two swaps, and their price in cents.
#[derive(Clone, Copy, Debug, PartialEq, Eq)]
pub struct Part {
    pub first: usize,
    pub ticks: usize,
    pub cents: u64,
}

impl Bill {
    /// Runs an image by the words, with swaps before some of them, or tells why there is no price: with 17 and 18 there is one.
    pub fn of(
        subject: &Subject,
        places: usize,
        prices: Prices,
        words: &[u16],
        swaps: &[Swap],
    ) -> Result<Bill, Problem> {
        let (image, table) = (&subject.image, subject.image.prepared()?);
        let mut state = fresh(places)?;
        let mut bill = Bill { answer: Ok(0), masks: Vec::new(), prices, parts: Vec::new() };
        let mut first = 0;
        loop {
            swaps::make(swaps, first, &table, &mut state)?;
            let later =
                swaps.iter().map(|swap| swap.tick).filter(|tick| (first + 1..words.len()).contains(tick));
            let next = later.min();
            let part = &words[first..next.unwrap_or(words.len())];
            let (mut masks, mut codes) = (vec![0; part.len()], vec![0; part.len()]);
            let priced = Proved.priced_run(&image.text, &mut state, &prices, part, &mut masks, &mut codes);
            let finished = match priced.answer {
                Ok(ticks) | Err(Refusal::Full { ticks } | Refusal::NoRow { ticks }) => ticks,
                Err(refusal) => return Err(subject.problem(refusal)),
            };
            masks.truncate(finished);
            bill.add(first, &masks, priced.price)?;
            bill.answer = priced.answer.map(|ticks| first + ticks).map_err(|refusal| refusal.after(first));
            first += part.len();
            if bill.answer.is_err() || next.is_none() {
                return Ok(bill);
            }
        }
    }

    /// A part, whose lines make the library's price.
    fn add(&mut self, first: usize, masks: &[u32], cents: u64) -> Result<(), Problem> {
        let price = |mask: &u32| -> u64 {
            let on = (0..OPERATIONS).filter(|operation| mask >> operation & 1 == 1);
            on.map(|operation| u64::from(self.prices[operation])).sum()
        };
        let own = (masks.iter().map(price).sum::<u64>() + 50) / 100;
        if own != cents {
            return Err(Problem::internal(format!(
                "the lines make {own} cents, and the library's price is {cents}"
            )));
        }
        self.masks.extend(masks);
        self.parts.push(Part { first, ticks: masks.len(), cents });
        Ok(())
    }

    /// The parts from swap to swap; a run without swaps has one.
    pub fn parts(&self) -> &[Part] {
        &self.parts
    }

    /// What all lines cost, in hundredths of a cent.
    pub fn sum(&self) -> u64 {
        (0..OPERATIONS).map(|operation| self.ticks(operation) * u64::from(self.prices[operation])).sum()
    }

    /// At how many ticks an output was on.
    fn ticks(&self, operation: usize) -> u64 {
        self.masks.iter().filter(|mask| **mask >> operation & 1 == 1).count() as u64
    }

    /// How many ticks were made, and the price of all in cents.
    pub fn total(&self) -> (usize, u64) {
        (self.masks.len(), self.parts.iter().map(|part| part.cents).sum())
    }

    /// The outputs that were on, each with its ticks and its price a tick in hundredths of a cent.
    pub fn lines(&self) -> impl Iterator<Item = (u8, u64, u64)> + '_ {
        let line =
            |operation: usize| (operation as u8, self.ticks(operation), u64::from(self.prices[operation]));
        (0..OPERATIONS).map(line).filter(|(_, ticks, _)| *ticks > 0)
    }

    /// A line for each output that was on, their sum, and what the ticks cost.
    pub fn report(&self, names: &Names) -> String {
        let heading = ["output", "ticks on", "cents a tick", "cents"].map(str::to_string);
        let mut rows = vec![heading];
        for (operation, ticks, price) in self.lines() {
            let name = names.operation(operation);
            rows.push([name, thousands(ticks as usize), cents(price), cents(ticks * price)]);
        }
        rows.push(["sum".to_string(), String::new(), String::new(), cents(self.sum())]);
        let (ticks, price) = self.total();
        let (ticks, price) = (counted(ticks, "tick"), counted(price as usize, "cent"));
        let total = format!("{}\n{ticks}, to pay: {price}\n", aligned(&rows, |column| column > 0));
        if self.parts.len() == 1 {
            return total;
        }
        let part = |part: &Part| {
            let cents = counted(part.cents as usize, "cent");
            format!("  {} from tick {}: {cents}\n", counted(part.ticks, "tick"), part.first)
        };
        let parts: String = self.parts.iter().map(part).collect();
        format!("{total}each part from swap to swap has its own price, rounded by itself:\n{parts}")
    }
}

/// Hundredths of a cent as cents.
fn cents(hundredths: u64) -> String {
    format!("{}.{:02}", thousands((hundredths / 100) as usize), hundredths % 100)
}

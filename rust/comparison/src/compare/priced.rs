//! Cases of priced runs: of some words or of as many as there may be, and of too many; with price lists that make sums of halves.

use super::ticks::Ground;
use super::{Case, Compared, Summary};
use crate::generate::{images, letters, prices, runs};
use crate::show;
use reference::answer::{Answer, Refusal};
use reference::expectation::Run;
use reference::frames::text_of;
use reference::library::{Library, PricedReport, Prices, Reference};
use reference::price::{hundredths, PRICED_WORDS};
use reference::state::{fresh_state, State};
use reference::Told;

impl Summary {
    /// Notes a priced run by the masks of its finished ticks.
    fn note_priced(&mut self, answer: Answer, prices: &Prices, finished: &[u32]) {
        if !matches!(answer.number(), 0 | 17 | 18) {
            return;
        }
        let sum = hundredths(prices, finished);
        let noted = &mut self.priced;
        noted.stopped += usize::from(answer.number() != 0 && sum >= 50);
        noted.halves += usize::from(sum % 100 == 50);
        noted.below_halves += usize::from(sum % 100 == 49);
        noted.longest += usize::from(finished.len() == PRICED_WORDS);
        noted.large += usize::from(sum > u64::from(u32::MAX));
    }
}

impl Case<'_> {
    pub(super) fn priced_run(&mut self) -> Compared {
        let long = self.random.once_in(15);
        let (image, state) = if long { self.long_image_and_state() } else { self.image_and_state() };
        self.summary.note_letters("priced_run", &image);
        let run = if long { self.long_run() } else { self.any_run() };
        let (answer, finished) = finished(&image, &state, &run);
        let prices = self.prices_for(&finished);
        self.summary.note_priced(answer, &prices, &finished);
        let (ground, priced) =
            (Ground { bytes: &image, shown: show::text }, Run { prices: Some(prices), ..run });
        self.ran_by("priced_run", ground, &state, &priced, |library, masks, codes| {
            let mut after = state;
            let PricedReport { answer, price } =
                library.priced_run(&image, &mut after, &prices, &priced.words, masks, codes);
            (answer, (after, price))
        })?;
        Ok(())
    }

    /// Any, or mostly ones whose runs do not end early: a chart's from a fresh state of 32 places, often with all outputs on.
    fn long_image_and_state(&mut self) -> (Vec<u8>, State) {
        if self.random.once_in(3) {
            return self.image_and_state();
        }
        let (_, mut image) = images::translated(&mut self.random);
        if self.random.once_in(2) {
            image.labels[2..].iter_mut().for_each(|label| label.mask = u32::MAX);
        }
        let text = letters::sizes(&mut self.random, text_of(&image.frames()));
        (text, fresh_state(32).expect("32 is a size"))
    }

    /// As many words as there may be, some less or more, with or without room for them.
    fn long_run(&mut self) -> Run {
        let most = PRICED_WORDS;
        let count = self.random.pick(&[most - 1, most, most, most + 1, most + 1, 2 * most]);
        let mut room = || self.random.pick(&[0, 3, most - 1, most, count, count + 1]);
        let (masks, codes) = (room(), room());
        Run {
            words: runs::words(&mut self.random, count),
            masks: vec![0xA5A5_A5A5; masks],
            codes: vec![0xA5; codes],
            prices: None,
        }
    }

    /// Any list, often one that makes the sum of these masks end in a half, or right below one.
    fn prices_for(&mut self, masks: &[u32]) -> Prices {
        let list = prices::list(&mut self.random);
        let wanted = self.random.pick(&[50, 49]);
        if self.random.once_in(4) || masks.len() > 1_000 {
            return list;
        }
        prices::ending(&mut self.random, &list, masks, wanted).unwrap_or(list)
    }
}

/// The masks of the ticks that a run finishes, by the reference.
fn finished(image: &[u8], state: &State, run: &Run) -> (Answer, Vec<u32>) {
    let (mut masks, mut codes) = (run.masks.clone(), run.codes.clone());
    let (mut state, none) = (*state, [0; 32]);
    let answer = Reference.priced_run(image, &mut state, &none, &run.words, &mut masks, &mut codes).answer;
    masks.truncate(answer.unwrap_or_else(Refusal::ticks));
    (answer, masks)
}

//! Libraries that read characters in one wrong way each: the comparison must find every one.

#[macro_use]
mod common;

use common::is_found;
use reference::{
    as_the_reference, Answer, Cause, Fillings, Library, PricedReport, Prices, Reference, Refusal, State,
};

/// Which character is read in the place of each.
type Reading = fn(u8) -> u8;

const FAULTS: [(&str, Reading); 8] = [
    ("refuses small letters", |c| if (b'a'..=b'f').contains(&c) { b'g' } else { c }),
    ("refuses the small f", |c| if c == b'f' { b'g' } else { c }),
    ("takes a small letter for the one after it", |c| if (b'a'..=b'e').contains(&c) { c + 1 } else { c }),
    ("takes G", |c| if c == b'G' { b'F' } else { c }),
    ("takes g", |c| if c == b'g' { b'f' } else { c }),
    ("takes the backquote", |c| if c == b'`' { b'9' } else { c }),
    ("leaves the highest bit out", |c| c & 127),
    ("sets the bit of small letters in numerals too", |c| if (16..26).contains(&c) { c | 32 } else { c }),
];

struct Misreading(Reading);

impl Misreading {
    fn read(&self, text: &[u8]) -> Vec<u8> {
        text.iter().map(|character| self.0(*character)).collect()
    }
}

impl Library for Misreading {
    as_the_reference!(write_chart, check_table, sum, live_run, live_rebind, spins, value_calls);

    fn read_chart(&self, text: &[u8], out: &mut [u8]) -> Answer {
        Reference.read_chart(&self.read(text), out)
    }

    fn translate(&self, text: &[u8], out: &mut [u8]) -> Answer {
        Reference.translate(&self.read(text), out)
    }

    fn places(&self, text: &[u8]) -> Answer {
        Reference.places(&self.read(text))
    }

    fn dry_run(
        &self,
        text: &[u8],
        size: usize,
        image: &mut [u8],
        words: &[u16],
        masks: &mut [u32],
        codes: &mut [u8],
    ) -> Answer {
        Reference.dry_run(&self.read(text), size, image, words, masks, codes)
    }

    fn check_image(&self, text: &[u8]) -> Answer {
        Reference.check_image(&self.read(text))
    }

    fn run(
        &self,
        image: &[u8],
        state: &mut State,
        words: &[u16],
        masks: &mut [u32],
        codes: &mut [u8],
    ) -> Answer {
        Reference.run(&self.read(image), state, words, masks, codes)
    }

    fn priced_run(
        &self,
        image: &[u8],
        state: &mut State,
        prices: &Prices,
        words: &[u16],
        masks: &mut [u32],
        codes: &mut [u8],
    ) -> PricedReport {
        Reference.priced_run(&self.read(image), state, prices, words, masks, codes)
    }

    fn cause(&self, image: &[u8], state: &State, word: u16) -> Result<Cause, Refusal> {
        Reference.cause(&self.read(image), state, word)
    }

    fn rebind(&self, image: &[u8], state: &mut State, number: usize, scheme: usize) -> Answer {
        Reference.rebind(&self.read(image), state, number, scheme)
    }

    fn list_rows(&self, image: &[u8], firsts: &mut [u16], counts: &mut [u16]) -> Answer {
        Reference.list_rows(&self.read(image), firsts, counts)
    }

    fn minimise(&self, image: &[u8], out: &mut [u8]) -> Answer {
        Reference.minimise(&self.read(image), out)
    }

    fn count_fillings(
        &self,
        image: &[u8],
        size: usize,
        ticks: usize,
        conditions: usize,
    ) -> Result<Fillings, Refusal> {
        Reference.count_fillings(&self.read(image), size, ticks, conditions)
    }

    fn prepare(&self, image: &[u8], table: &mut [u8]) -> Answer {
        Reference.prepare(&self.read(image), table)
    }
}

#[test]
fn every_misreading_is_found() {
    for (fault, reading) in FAULTS {
        is_found(format_args!("a library that {fault}"), &Misreading(reading), 40_000);
    }
}

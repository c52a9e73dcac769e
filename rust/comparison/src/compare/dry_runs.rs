//! Cases of dry runs: a chart's text, a size and words, with room for image, masks and codes or without. What the reference makes of them
//! is the walk's.

use super::ticks::{show_run, widened};
use super::{Case, Compared, MARGIN};
use crate::generate::{charts, runs};
use crate::show;
use reference::answer::{Answer, Refusal};
use reference::entry;
use reference::expectation::Run;
use reference::library::{Library, Reference};
use reference::state::OWN;

/// What a dry run is lent, and what it leaves there.
#[derive(Clone, Debug, PartialEq)]
struct Buffers {
    image: Vec<u8>,
    masks: Vec<u32>,
    codes: Vec<u8>,
}

impl<'a> Case<'a> {
    pub(super) fn dry_run(&mut self) -> Compared {
        let text = self.chart_text(charts::chart);
        self.summary.note_letters("dry_run", &text);
        let size = self.dry_size();
        let needed = entry::translated(&text).map_or(100, |image| image.len());
        let room = runs::room(&mut self.random, needed);
        let run = self.any_run();
        let lent = Buffers {
            image: runs::bytes(&mut self.random, room + 2 * MARGIN),
            masks: widened(&run.masks, 0xA5A5_A5A5),
            codes: widened(&run.codes, 0xA5),
        };
        let (mut wanted, mut given) = (lent.clone(), lent);
        let answer = made(&Reference, &text, size, &run, &mut wanted);
        let got = made(self.library, &text, size, &run, &mut given);
        let finished = answer.unwrap_or_else(Refusal::ticks);
        self.summary.note_codes("dry_run", 1, &OWN, &wanted.codes[MARGIN..][..finished]);
        self.hold("dry_run", answer, &(answer, wanted), &(got, given), || {
            format!("{}size {size}, image of {room}; {}", show::text(&text), show_run(&run))
        })
    }

    /// Mostly small, so that stacks fill; some are none, and some are small again where they are cut.
    fn dry_size(&mut self) -> usize {
        match self.random.below(12) {
            0 => self.random.pick(&[0, 32, 33, 256 + 3, 65_536 + 3, (1 << 32) + 3, usize::MAX]),
            1..=4 => self.random.within(1, 32),
            _ => self.random.within(1, 4),
        }
    }
}

fn made<'a>(library: &(dyn Library + 'a), text: &[u8], size: usize, run: &Run, lent: &mut Buffers) -> Answer {
    let room = lent.image.len() - 2 * MARGIN;
    let image = &mut lent.image[MARGIN..][..room];
    let masks = &mut lent.masks[MARGIN..][..run.masks.len()];
    let codes = &mut lent.codes[MARGIN..][..run.codes.len()];
    library.dry_run(text, size, image, &run.words, masks, codes)
}

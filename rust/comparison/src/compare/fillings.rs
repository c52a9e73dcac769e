//! Cases of counts of how often the stack fills: on images that fill it by some lists of words, on any, and on damaged ones.

use super::{Case, Compared, Summary};
use crate::generate::{damage, fillings, letters};
use crate::show;
use reference::frames::text_of;
use reference::library::{Fillings, Library, Reference};

impl Summary {
    /// Notes which of the three counts are not 0, where there is more than one list.
    fn note_fillings(&mut self, counted: &Fillings) {
        let some = |counts: &[u32]| usize::from(counts.iter().all(|count| *count > 0));
        let Fillings { ended, full, unmatched } = *counted;
        self.fillings.full += some(&[ended, full]);
        self.fillings.unmatched += some(&[ended, unmatched]);
        self.fillings.both += some(&[full, unmatched]);
        self.fillings.most += usize::from(ended + full + unmatched == 1 << 16);
    }
}

impl Case<'_> {
    pub(super) fn count_fillings(&mut self) -> Compared {
        let frames = fillings::image(&mut self.random).frames();
        let text = match self.random.below(12) {
            0 => text_of(&damage::image(&mut self.random, &frames)),
            1 => damage::text(&mut self.random, &text_of(&frames)),
            _ => text_of(&frames),
        };
        let text = letters::sizes(&mut self.random, text);
        let (size, ticks, conditions) = fillings::asked(&mut self.random);
        self.summary.note_letters("count_fillings", &text);
        let wanted = Reference.count_fillings(&text, size, ticks, conditions);
        let got = self.library.count_fillings(&text, size, ticks, conditions);
        self.summary.note_fillings(&wanted.unwrap_or_default());
        self.hold("count_fillings", wanted, &wanted, &got, || {
            let image = show::text(&text);
            format!("size {size}, {ticks} ticks, {conditions} conditions, image of {image}")
        })
    }
}

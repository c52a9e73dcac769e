//! Cases of row lists.

use super::{Case, Compared, MARGIN};
use crate::generate::{images, runs};
use crate::show;
use interface::LABELS;
use reference::library::{Library, Reference};

impl Case<'_> {
    /// The middles of two filled buffers are lent, long enough or not.
    pub(super) fn list_rows(&mut self) -> Compared {
        let text = images::text(&mut self.random);
        self.summary.note_letters("list_rows", &text);
        let (mut most_firsts, mut most_counts) = ([0; LABELS], [0; LABELS]);
        let needed = Reference.list_rows(&text, &mut most_firsts, &mut most_counts).unwrap_or(0);
        let rooms = [0; 2].map(|_| runs::room(&mut self.random, needed));
        let filled = rooms.map(|room| runs::words(&mut self.random, room + 2 * MARGIN));
        let made = |library: &dyn Library| {
            let [mut firsts, mut counts] = filled.clone();
            let (lent_firsts, lent_counts) =
                (&mut firsts[MARGIN..][..rooms[0]], &mut counts[MARGIN..][..rooms[1]]);
            (library.list_rows(&text, lent_firsts, lent_counts), firsts, counts)
        };
        let (wanted, got) = (made(&Reference), made(self.library));
        self.hold("list_rows", wanted.0, &wanted, &got, || {
            let lent = |k: usize| show::words(&filled[k]);
            format!("{}buffers {}\n{}", show::text(&text), lent(0), lent(1))
        })
    }
}

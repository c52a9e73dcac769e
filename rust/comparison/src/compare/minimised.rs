//! Cases of images with alike labels joined.

use super::{Case, Compared};
use crate::generate::{alike, images};
use crate::show;
use reference::entry;
use reference::library::Library;

impl Case<'_> {
    /// Mostly images with labels that act alike, some of any sort.
    pub(super) fn minimise(&mut self) -> Compared {
        let any = self.random.once_in(8);
        let text = if any { images::text(&mut self.random) } else { alike::text(&mut self.random) };
        self.summary.note_letters("minimise", &text);
        let smaller = entry::minimised(&text);
        self.summary.note_joined(text.len(), smaller.as_ref().map_or(text.len(), Vec::len));
        let needed = smaller.map_or(100, |smaller| smaller.len());
        self.written("minimise", <dyn Library>::minimise, &text, needed, show::text)
    }
}

//! How often stacks of 1 to 32 places fill, over all lists of words of some conditions: a table, with a bar for each stack.

mod drops;

use fairleadow::{Fillings, Library, Refusal, COUNTED_BITS, COUNTED_TICKS, PLACES};

use crate::columns::aligned;
use crate::image::Image;
use crate::names::Names;
use crate::problem::{counted, listed, thousands, Problem};

use drops::drops;

pub use drops::Drops;

/// The marks of a bar that stands for all lists.
const WIDTH: u64 = 50;

/// Which lists are counted: of so many words, with so many conditions at 0 or 1.
#[derive(Clone, Copy, Debug, PartialEq, Eq)]
pub struct Lists {
    pub ticks: usize,
    pub conditions: usize,
}

impl Lists {
    /// What is not asked for is chosen: conditions up to the highest that the image tests, and as many ticks as can be counted.
    pub fn of(image: &Image, ticks: Option<usize>, conditions: Option<usize>) -> Lists {
        let tested = (u16::BITS - image.tested().leading_zeros()) as usize;
        let conditions = conditions.unwrap_or_else(|| match ticks {
            None | Some(0) => tested,
            Some(ticks) => tested.min(COUNTED_BITS / ticks),
        });
        let most = COUNTED_BITS.checked_div(conditions).unwrap_or(COUNTED_TICKS);
        Lists { ticks: ticks.unwrap_or(most), conditions }
    }
}

/// What was counted of each stack, that of 1 place first; of an image with a handler also its drops.
pub struct Drawing {
    lists: Lists,
    stacks: Vec<Fillings>,
    drops: Vec<Drops>,
}

impl Drawing {
    /// Counts on an accepted image by a library, or hands back why it is refused.
    pub fn of(library: &dyn Library, image: &Image, lists: Lists) -> Result<Drawing, Refusal> {
        let Lists { ticks, conditions } = lists;
        let counted = |places| library.count_fillings(&image.text, places, ticks, conditions);
        let stacks = (1..=PLACES).map(counted).collect::<Result<_, _>>()?;
        Ok(Drawing { lists, stacks, drops: Vec::new() })
    }

    /// With the drops, where the image has a handler.
    pub fn with_drops(mut self, library: &dyn Library, image: &Image) -> Result<Drawing, Problem> {
        if image.handler() != 0 {
            let table = image.prepared()?;
            let of_stack = |(places, stack)| drops(library, &table, places, self.lists, stack);
            self.drops = (1..).zip(&self.stacks).map(of_stack).collect::<Result<_, _>>()?;
        }
        Ok(self)
    }

    /// Which lists were counted.
    pub fn lists(&self) -> Lists {
        self.lists
    }

    /// What was counted of each stack, that of 1 place first; no drops where there is no handler.
    pub fn stacks(&self) -> impl Iterator<Item = (&Fillings, Drops)> {
        self.stacks.iter().enumerate().map(|(at, stack)| (stack, self.drops_of(at)))
    }

    fn drops_of(&self, at: usize) -> Drops {
        let full = self.stacks[at].full;
        self.drops.get(at).copied().unwrap_or(Drops { dropped: 0, found_full: full })
    }

    /// How many lists there are, and which conditions they vary.
    pub fn title(&self, image: &Image, names: &Names) -> String {
        let Lists { ticks, conditions } = self.lists;
        let lists = counted(1 << (ticks * conditions), "list");
        let named = |numbers: Vec<u8>| {
            let names: Vec<String> = numbers.into_iter().map(|number| names.condition(number)).collect();
            listed(&names)
        };
        let varied = match conditions {
            0 => "all conditions at 0".to_string(),
            _ => format!("{} at 0 or 1, all others at 0", named((0..conditions as u8).collect())),
        };
        let kept = named((conditions as u8..16).filter(|number| image.tested() >> number & 1 == 1).collect());
        let kept = if kept.is_empty() { kept } else { format!(" (tested too: {kept})") };
        format!("{lists} of {}; {varied}{kept}", counted(ticks, "word"))
    }

    /// A line for each stack, and from how many places on none fills it and none drops.
    pub fn report(&self) -> String {
        let unmatched = self.stacks.iter().any(|stack| stack.unmatched > 0);
        let drops = !self.drops.is_empty();
        let shared = if drops { "share that finds it full" } else { "share that fills it" };
        let row = |cells: [String; 6]| -> Vec<String> {
            let shown = [true, true, unmatched, drops, true, true];
            cells.into_iter().zip(shown).filter(|(_, shown)| *shown).map(|(cell, _)| cell).collect()
        };
        let heading = ["places", "fill the stack", "find no row", "drop", shared, ""];
        let mut rows = vec![row(heading.map(str::to_string))];
        for (at, stack) in self.stacks.iter().enumerate() {
            let lists = stack.ended + stack.full + stack.unmatched;
            let number = |count: u32| thousands(count as usize);
            let of_stack = self.drops_of(at);
            let (share, bar) = (share(of_stack.found_full, lists), bar(of_stack.found_full, lists));
            let counts = [stack.full, stack.unmatched, of_stack.dropped].map(number);
            let [full, unmatched, dropped] = counts;
            rows.push(row([thousands(at + 1), full, unmatched, dropped, share, bar]));
        }
        let last = rows[0].len() - 1;
        format!("{}\n{}\n", aligned(&rows, |column| column < last), self.conclusion())
    }

    fn conclusion(&self) -> String {
        let Lists { ticks, conditions } = self.lists;
        let none =
            format!("none of {} of {}", counted(1 << (ticks * conditions), "list"), counted(ticks, "word"));
        let fills = match self.stacks.iter().rposition(|stack| stack.full > 0) {
            None => format!("{none} fills any of these stacks"),
            Some(at) if at + 1 == PLACES => format!("lists fill a stack of {PLACES} places too"),
            Some(at) if at + 2 == PLACES => format!("{none} fills a stack of {PLACES} places"),
            Some(at) => format!("{none} fills a stack of {} places or more, up to {PLACES}", at + 2),
        };
        if self.drops.is_empty() {
            return fills;
        }
        let drops = match self.drops.iter().rposition(|drops| drops.dropped > 0) {
            None => "none drops".to_string(),
            Some(at) if at + 1 == PLACES => format!("lists drop on a stack of {PLACES} places too"),
            Some(at) => format!("from {} on none drops", counted(at + 2, "place")),
        };
        format!("{fills}; {drops}")
    }
}

/// In percent. A share that is neither none nor all never looks as if it were.
fn share(full: u32, lists: u32) -> String {
    let tenths = (u64::from(full) * 1_000 + u64::from(lists) / 2) / u64::from(lists);
    match tenths {
        0 if full > 0 => "under 0.1 %".to_string(),
        1_000 if full < lists => "over 99.9 %".to_string(),
        _ => format!("{}.{} %", tenths / 10, tenths % 10),
    }
}

/// A bar of the share's length: one mark at least where there is any, and all marks only for all lists.
fn bar(full: u32, lists: u32) -> String {
    let marks = (u64::from(full) * WIDTH).div_ceil(u64::from(lists));
    let most = if full < lists { WIDTH - 1 } else { WIDTH };
    "#".repeat(marks.min(most) as usize)
}

#[cfg(test)]
mod tests {
    use super::*;

    #[test]
    fn shares_never_look_like_none_or_all() {
        for (full, lists, wanted) in [
            (0, 1, "0.0 %"),
            (1, 1, "100.0 %"),
            (1, 65_536, "under 0.1 %"),
            (32, 65_536, "under 0.1 %"),
            (33, 65_536, "0.1 %"),
            (1, 3, "33.3 %"),
            (2, 3, "66.7 %"),
            (65_535, 65_536, "over 99.9 %"),
            (65_536, 65_536, "100.0 %"),
        ] {
            assert_eq!(share(full, lists), wanted, "{full} of {lists}");
        }
        for (full, lists, wanted) in
            [(0, 4, 0), (1, 65_536, 1), (1, 4, 13), (2, 4, 25), (65_535, 65_536, 49), (4, 4, 50)]
        {
            assert_eq!(bar(full, lists).len(), wanted, "{full} of {lists}");
        }
    }
}

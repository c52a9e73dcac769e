//! Cases of tables: prepared, run and ticked, alone and in turn with runs and ticks on the image's text.

use super::ticks::Ground;
use super::{Case, Compared};
use crate::generate::{images, letters, runs, states, tables};
use crate::show;
use reference::answer::Answer;
use reference::entry;
use reference::frames::{text_of, CHARACTERS};
use reference::library::{Library, Reference};
use reference::prepare::table_of;

impl<'a> Case<'a> {
    pub(super) fn prepare(&mut self) -> Compared {
        let text = if self.random.once_in(20) {
            let length = CHARACTERS * self.random.within(1, 9) + self.random.pick(&[0, 0, 1]);
            runs::bytes(&mut self.random, length)
        } else {
            images::text(&mut self.random)
        };
        self.summary.note_letters("prepare", &text);
        let needed = text.len() / CHARACTERS * 10;
        self.written("prepare", <dyn Library>::prepare, &text, needed, show::text)
    }

    /// A table as it was prepared, with one byte changed, or as live calls get it: damaged, cut off, with bytes behind it.
    pub(super) fn check_table(&mut self) -> Compared {
        let table = match self.random.below(4) {
            0 => table_of(&images::accepted(&mut self.random)).concat(),
            1 => {
                let mut table = table_of(&images::small(&mut self.random)).concat();
                let at = self.random.below(table.len());
                table[at] ^= self.random.within(1, 255) as u8;
                table
            }
            _ => tables::table_and_state(&mut self.random).0,
        };
        let answer = entry::check_table(&table);
        let got = self.library.check_table(&table);
        self.hold("check_table", answer, &answer, &got, || show::bytes(&table))
    }

    /// Any bytes, in two parts.
    pub(super) fn sum(&mut self) -> Compared {
        let (begun, length) = (self.random.number() as u32, self.random.below(300));
        let bytes = runs::bytes(&mut self.random, length);
        let (first, rest) = bytes.split_at(self.random.below(length + 1));
        let sums = |library: &dyn Library| {
            let part = library.sum(begun, first);
            (part, library.sum(part, rest), library.sum(begun, &bytes))
        };
        let (wanted, got) = (sums(&Reference), sums(self.library));
        self.hold("sum", Answer::Ok(0), &wanted, &got, || {
            format!("from {begun:08X}, {}", show::bytes(&bytes))
        })
    }

    pub(super) fn live_run(&mut self) -> Compared {
        let (table, state) = tables::table_and_state(&mut self.random);
        let run = self.any_run();
        let ground = Ground { bytes: &table, shown: show::bytes };
        self.ran("live_run", <dyn Library>::live_run, ground, &state, &run)?;
        Ok(())
    }

    pub(super) fn live_tick(&mut self) -> Compared {
        let (table, state) = tables::table_and_state(&mut self.random);
        let ground = Ground { bytes: &table, shown: show::bytes };
        self.some_ticks("live_tick", <dyn Library>::live_tick, ground, &state)
    }

    /// One state through runs, ticks and rebindings on the text and on the table, in any order, refused ones too.
    pub(super) fn mixture(&mut self) -> Compared {
        let image = images::accepted(&mut self.random);
        let mut state = states::state(&mut self.random, image.shape());
        let text = letters::sizes(&mut self.random, text_of(&image.frames()));
        self.summary.note_letters("mixture", &text);
        let table = table_of(&image).concat();
        let on_text = Ground { bytes: &text, shown: show::text };
        let on_table = Ground { bytes: &table, shown: show::bytes };
        for _ in 0..self.random.within(1, 8) {
            let words = self.random.within(0, 6);
            let run = runs::run(&mut self.random, words);
            let word = self.random.number() as u16;
            let rebinding = runs::rebinding(&mut self.random, image.entries.len());
            state = match self.random.below(6) {
                0 => self.ran("mixture", <dyn Library>::run, on_text, &state, &run)?,
                1 => self.ran("mixture", <dyn Library>::live_run, on_table, &state, &run)?,
                2 => self.ticked("mixture", <dyn Library>::tick, on_text, &state, word)?.1,
                3 => self.rebound("mixture", <dyn Library>::rebind, on_text, &state, rebinding)?,
                4 => self.rebound("mixture", <dyn Library>::live_rebind, on_table, &state, rebinding)?,
                _ => self.ticked("mixture", <dyn Library>::live_tick, on_table, &state, word)?.1,
            };
        }
        Ok(())
    }
}

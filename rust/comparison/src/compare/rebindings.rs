//! Cases of rebindings, and lists of all calls that a state goes through.

use super::ticks::{show_run, Ground};
use super::{Call, Case, Compared, Difference};
use crate::generate::{images, letters, runs, tables};
use crate::show;
use reference::answer::{Answer, Refusal};
use reference::check::chart_of;
use reference::expectation::{expected, Outcome, Run, Step};
use reference::frames::{text_of, CHARACTERS};
use reference::library::{Library, Reference, Tick};
use reference::state::State;

/// A rebinding or a live rebinding, by what it goes by.
type RebindCall<'a> = fn(&(dyn Library + 'a), &[u8], &mut State, usize, usize) -> Answer;

/// What a list of calls is made on.
struct Made {
    image: Vec<u8>,
    table: Vec<u8>,
    live: bool,
}

impl<'a> Case<'a> {
    /// Compares a rebinding of either kind, and hands back the state after it.
    pub(super) fn rebound(
        &mut self,
        name: &'static str,
        call: RebindCall<'a>,
        ground: Ground,
        start: &State,
        (number, scheme): (usize, usize),
    ) -> Result<State, Box<Difference>> {
        let (mut state, mut given) = (*start, *start);
        let wanted = call(&Reference, ground.bytes, &mut state, number, scheme);
        let got = call(self.library, ground.bytes, &mut given, number, scheme);
        self.hold(name, wanted, &(wanted, state), &(got, given), || {
            let on = (ground.shown)(ground.bytes);
            format!("{on}state: {}\nnumber {number} to scheme {scheme}", show::state(start))
        })?;
        Ok(state)
    }

    /// One state through some rebindings, refused ones too.
    fn some_rebindings(
        &mut self,
        name: &'static str,
        call: RebindCall<'a>,
        ground: Ground,
        start: &State,
        schemes: u8,
    ) -> Compared {
        let mut state = *start;
        for _ in 0..4 {
            let rebinding = runs::rebinding(&mut self.random, schemes.into());
            state = self.rebound(name, call, ground, &state, rebinding)?;
        }
        Ok(())
    }

    pub(super) fn rebind(&mut self) -> Compared {
        let (image, state) = self.image_and_state();
        self.summary.note_letters("rebind", &image);
        let schemes = reference::entry::image_from_text(&image).map_or(16, |image| image.entries.len() as u8);
        let ground = Ground { bytes: &image, shown: show::text };
        self.some_rebindings("rebind", <dyn Library>::rebind, ground, &state, schemes)
    }

    pub(super) fn live_rebind(&mut self) -> Compared {
        let (table, state) = tables::table_and_state(&mut self.random);
        let schemes = table.get(1).map_or(16, |schemes| (*schemes).clamp(1, 16));
        let ground = Ground { bytes: &table, shown: show::bytes };
        self.some_rebindings("live_rebind", <dyn Library>::live_rebind, ground, &state, schemes)
    }

    /// Demand 3: a list of runs, ticks and rebindings against the walk over the joined words, which is told the binding before each.
    /// Where `live`, some of them are made on the table.
    pub(super) fn calls(&mut self, name: &'static str, live: bool) -> Compared {
        let (records, image) = images::translated(&mut self.random);
        let chart = chart_of(&records).expect("generated charts are valid");
        let text = letters::sizes(&mut self.random, text_of(&records));
        let size = if self.random.once_in(2) { self.random.within(1, 4) } else { self.random.within(1, 32) };
        let list = runs::list(&mut self.random, image.entries.len());
        let image_text =
            self.made("translate", <dyn Library>::translate, &text, image.frames().len() * CHARACTERS)?;
        let image_text = letters::sizes(&mut self.random, image_text);
        let table = self.made("prepare", <dyn Library>::prepare, &image_text, image.frames().len() * 10)?;
        self.summary.note_letters(name, &text);
        self.summary.note_letters(name, &image_text);
        let outcomes = expected(&chart, size, &list);
        let mut state = self.library.fresh(size).unwrap_or(State::NONE);
        let made = Made { image: image_text, table, live };
        let mut depth = 1;
        for (k, (step, wanted)) in list.iter().zip(&outcomes).enumerate() {
            let binding = state.serving;
            let outcome = match step {
                Step::Run(run) => self.list_run(&made, &mut state, run),
                Step::Rebind(number, scheme) => self.list_rebinding(&made, &mut state, *number, *scheme),
            };
            let finished = &wanted.codes[..wanted.answer.unwrap_or_else(Refusal::ticks)];
            depth = self.summary.note_codes(name, depth, &binding, finished);
            self.hold(name, wanted.answer, wanted, &outcome, || {
                let shown: Vec<String> = list.iter().map(show_step).collect();
                format!("chart of {}size {size}, call {k} of\n{}", show::text(&text), shown.join("\n"))
            })?;
        }
        Ok(())
    }

    /// Whether the next call of a list is made on the table.
    fn on_table(&mut self, made: &Made) -> bool {
        made.live && !self.random.once_in(3)
    }

    /// A run of a list, a priced one where it has prices; one of a single word is made as a tick by turns, which writes nothing where
    /// it is refused.
    fn list_run(&mut self, made: &Made, state: &mut State, run: &Run) -> Outcome {
        let (mut masks, mut codes) = (run.masks.clone(), run.codes.clone());
        if let Some(prices) = &run.prices {
            let priced =
                self.library.priced_run(&made.image, state, prices, &run.words, &mut masks, &mut codes);
            return Outcome { answer: priced.answer, masks, codes, price: Some(priced.price) };
        }
        let live = self.on_table(made);
        if run.words.len() == 1 && run.joins() && self.random.once_in(2) {
            let ticked = if live {
                self.library.live_tick(&made.table, state, run.words[0])
            } else {
                self.library.tick(&made.image, state, run.words[0])
            };
            if let Ok(Tick { mask, code }) = ticked {
                (masks[0], codes[0]) = (mask, code);
            }
            return Outcome { answer: ticked.map(|_| 1), masks, codes, price: None };
        }
        let answer = if live {
            self.library.live_run(&made.table, state, &run.words, &mut masks, &mut codes)
        } else {
            self.library.run(&made.image, state, &run.words, &mut masks, &mut codes)
        };
        Outcome { answer, masks, codes, price: None }
    }

    fn list_rebinding(&mut self, made: &Made, state: &mut State, number: usize, scheme: usize) -> Outcome {
        Outcome::of_rebinding(if self.on_table(made) {
            self.library.live_rebind(&made.table, state, number, scheme)
        } else {
            self.library.rebind(&made.image, state, number, scheme)
        })
    }

    /// What the library writes into a buffer that is just long enough.
    pub(super) fn made(
        &mut self,
        name: &'static str,
        call: Call<'a>,
        input: &[u8],
        length: usize,
    ) -> Result<Vec<u8>, Box<Difference>> {
        let mut made = vec![0; length];
        let (wanted, got) = (Ok(length), call(self.library, input, &mut made));
        self.hold(name, wanted, &wanted, &got, || show::text(input))?;
        Ok(made)
    }
}

fn show_step(step: &Step) -> String {
    match step {
        Step::Run(run) => show_run(run),
        Step::Rebind(number, scheme) => format!("number {number} to scheme {scheme}"),
    }
}

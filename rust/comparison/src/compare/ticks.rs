//! Cases of runs and ticks on an image's text, and what every kind of run and tick is compared by.

use std::fmt::Debug;

use super::{Case, Compared, Difference, MARGIN};
use crate::generate::{damage, images, letters, runs, states};
use crate::show;
use reference::answer::{Answer, Refusal};
use reference::expectation::Run;
use reference::frames::text_of;
use reference::library::{Library, Reference, Tick};
use reference::state::State;

/// A run or a live run, by what it runs on.
type RunCall<'a> = fn(&(dyn Library + 'a), &[u8], &mut State, &[u16], &mut [u32], &mut [u8]) -> Answer;

/// A tick or a live tick, by what it ticks on.
type TickCall<'a> = fn(&(dyn Library + 'a), &[u8], &mut State, u16) -> Result<Tick, Refusal>;

/// What a run or a tick is made on, an image's text or a table, and how that is shown.
#[derive(Clone, Copy)]
pub(super) struct Ground<'b> {
    pub bytes: &'b [u8],
    pub shown: fn(&[u8]) -> String,
}

impl<'a> Case<'a> {
    /// An image text, mostly accepted, and a state for it.
    pub(super) fn image_and_state(&mut self) -> (Vec<u8>, State) {
        let image = images::accepted(&mut self.random);
        let state = states::state(&mut self.random, image.shape());
        let frames = image.frames();
        let text = match self.random.below(10) {
            0 => text_of(&damage::image(&mut self.random, &frames)),
            1 => damage::text(&mut self.random, &text_of(&frames)),
            _ => text_of(&frames),
        };
        (letters::sizes(&mut self.random, text), state)
    }

    /// Compares a run or a live run, and hands back the state after it.
    pub(super) fn ran(
        &mut self,
        name: &'static str,
        call: RunCall<'a>,
        ground: Ground,
        state: &State,
        run: &Run,
    ) -> Result<State, Box<Difference>> {
        self.ran_by(name, ground, state, run, |library, masks, codes| {
            let mut after = *state;
            (call(library, ground.bytes, &mut after, &run.words, masks, codes), after)
        })
    }

    /// Compares a run of any kind, and hands back what it leaves besides its answer and its buffers.
    pub(super) fn ran_by<T: Copy + PartialEq + Debug>(
        &mut self,
        name: &'static str,
        ground: Ground,
        state: &State,
        run: &Run,
        call: impl Fn(&(dyn Library + 'a), &mut [u32], &mut [u8]) -> (Answer, T),
    ) -> Result<T, Box<Difference>> {
        let (mut masks, mut codes) = (widened(&run.masks, 0xA5A5_A5A5), widened(&run.codes, 0xA5));
        let (mut got_masks, mut got_codes) = (masks.clone(), codes.clone());
        let made = |library: &(dyn Library + 'a), masks: &mut [u32], codes: &mut [u8]| {
            let masks = &mut masks[MARGIN..][..run.masks.len()];
            let codes = &mut codes[MARGIN..][..run.codes.len()];
            call(library, masks, codes)
        };
        let (answer, after) = made(&Reference, &mut masks, &mut codes);
        let finished = &codes[MARGIN..][..answer.unwrap_or_else(Refusal::ticks)];
        self.summary.note_codes(name, state.depth.into(), &state.serving, finished);
        let (got, got_after) = made(self.library, &mut got_masks, &mut got_codes);
        let wanted = (answer, after, masks, codes);
        let given = (got, got_after, got_masks, got_codes);
        self.hold(name, answer, &wanted, &given, || {
            let on = (ground.shown)(ground.bytes);
            format!("{on}state: {}\n{}", show::state(state), show_run(run))
        })?;
        Ok(after)
    }

    /// Compares a tick of any kind, and hands back its answer and the state after it.
    pub(super) fn ticked(
        &mut self,
        name: &'static str,
        call: TickCall<'a>,
        ground: Ground,
        start: &State,
        word: u16,
    ) -> Result<(Result<Tick, Refusal>, State), Box<Difference>> {
        let (mut state, mut given) = (*start, *start);
        let wanted = call(&Reference, ground.bytes, &mut state, word);
        let finished = wanted.ok().map(|tick| tick.code);
        self.summary.note_codes(name, start.depth.into(), &start.serving, finished.as_slice());
        let got = call(self.library, ground.bytes, &mut given, word);
        self.hold(name, wanted, &(wanted, state), &(got, given), || {
            let on = (ground.shown)(ground.bytes);
            format!("{on}state: {}\nword {word:04X}", show::state(start))
        })?;
        Ok((wanted, state))
    }

    /// One state through some ticks, one after the other, as long as none is refused.
    pub(super) fn some_ticks(
        &mut self,
        name: &'static str,
        call: TickCall<'a>,
        ground: Ground,
        start: &State,
    ) -> Compared {
        let mut state = *start;
        for word in runs::words(&mut self.random, 6) {
            let (answer, after) = self.ticked(name, call, ground, &state, word)?;
            if answer.is_err() {
                break;
            }
            state = after;
        }
        Ok(())
    }

    /// A run of any length.
    pub(super) fn any_run(&mut self) -> Run {
        let words = self.random.pick(&[0, 1, 5, 30, 100]);
        runs::run(&mut self.random, words)
    }

    pub(super) fn run(&mut self) -> Compared {
        let (image, state) = self.image_and_state();
        self.summary.note_letters("run", &image);
        let run = self.any_run();
        let ground = Ground { bytes: &image, shown: show::text };
        self.ran("run", <dyn Library>::run, ground, &state, &run)?;
        Ok(())
    }

    pub(super) fn tick(&mut self) -> Compared {
        let (image, state) = self.image_and_state();
        self.summary.note_letters("tick", &image);
        let ground = Ground { bytes: &image, shown: show::text };
        self.some_ticks("tick", <dyn Library>::tick, ground, &state)
    }

    /// The causes of some ticks of one state, most of which are no refusals.
    pub(super) fn cause(&mut self) -> Compared {
        let (image, state) = self.image_and_state();
        self.summary.note_letters("cause", &image);
        for word in runs::words(&mut self.random, 4) {
            let wanted = Reference.cause(&image, &state, word);
            let got = self.library.cause(&image, &state, word);
            self.hold("cause", wanted, &wanted, &got, || {
                format!("{}state: {}\nword {word:04X}", show::text(&image), show::state(&state))
            })?;
        }
        Ok(())
    }
}

/// A buffer with margins on both sides.
pub(super) fn widened<T: Copy>(buffer: &[T], filler: T) -> Vec<T> {
    [&[filler; MARGIN], buffer, &[filler; MARGIN]].concat()
}

pub(super) fn show_run(run: &Run) -> String {
    let (masks, codes) = (run.masks.len(), run.codes.len());
    let prices = run.prices.map_or(String::new(), |prices| format!("; prices {prices:?}"));
    format!("{}; room for {masks} masks, {codes} codes{prices}", show::words(&run.words))
}

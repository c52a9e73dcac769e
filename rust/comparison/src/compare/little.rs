//! Cases of little charts, and every little chart run by all short lists of words.

use super::{Case, Compared};
use crate::generate::little;
use crate::show;
use interface::{IMAGE_TEXT, LITTLE_TEXT, TABLE};
use reference::answer::Answer;
use reference::entry::chart_from_text;
use reference::expectation::{expected, Outcome, Run, Step};
use reference::library::Library;
use reference::little::texts;
use reference::State;

impl Case<'_> {
    pub(super) fn little_chart(&mut self) -> Compared {
        let (frames, number) = little::asked(&mut self.random);
        let needed = texts(frames).get(number).map_or(100, Vec::len);
        let shown = || format!("{frames} frames, number {number}, ");
        self.lent("little_chart", needed, |library, out| library.little_chart(frames, number, out), shown)
    }
}

/// Of 2, 3 and 4 frames, how many little charts a library has, and how many lists of words they were run by.
#[derive(Clone, Copy, Debug, Default, PartialEq, Eq)]
pub struct Tried {
    pub charts: [usize; 3],
    pub lists: [usize; 3],
}

/// Fetches every little chart from a library, and translates and runs it there by each list of two words more than it has nodes, with
/// condition 0 at 0 or 1 and all others at 0, from a fresh state of 1, 2 and 3 places: runs and live runs make the ticks of the walk.
pub fn run_little_charts(library: &dyn Library) -> Result<Tried, String> {
    let mut tried = Tried::default();
    for (at, frames) in (2..=4).enumerate() {
        let mut text = [0; LITTLE_TEXT];
        while let Ok(length) = library.little_chart(frames, tried.charts[at], &mut text) {
            let told = |fault| format!("{frames} frames, number {}: {fault}", tried.charts[at]);
            tried.lists[at] += run_little_chart(library, &text[..length], frames + 2).map_err(told)?;
            tried.charts[at] += 1;
        }
    }
    Ok(tried)
}

/// A call that writes into a buffer of this length, which is long enough.
fn made(length: usize, call: impl FnOnce(&mut [u8]) -> Answer) -> Result<Vec<u8>, String> {
    let mut out = vec![0; length];
    let length = call(&mut out).map_err(|refusal| refusal.to_string())?;
    out.truncate(length);
    Ok(out)
}

/// Runs one chart by all lists of so many words, and counts them.
fn run_little_chart(library: &dyn Library, text: &[u8], count: usize) -> Result<usize, String> {
    let chart = chart_from_text(text).map_err(|refusal| format!("{refusal:?}"))?;
    let image = made(IMAGE_TEXT, |out| library.translate(text, out))?;
    let table = made(TABLE, |out| library.prepare(&image, out))?;
    let mut lists = 0;
    for places in 1..=3 {
        let state = library.fresh(places).map_err(|refusal| refusal.to_string())?;
        for bits in 0..1u16 << count {
            let words: Vec<u16> = (0..count).map(|tick| bits >> tick & 1).collect();
            let (masks, codes) = (vec![0xAAAA; count], vec![0xAA; count]);
            let run = Run { words: words.clone(), masks, codes, prices: None };
            let wanted = expected(&chart, places, &[Step::Run(run.clone())]).remove(0);
            let on_image =
                outcome(&run, state, |s, masks, codes| library.run(&image, s, &words, masks, codes));
            let live =
                outcome(&run, state, |s, masks, codes| library.live_run(&table, s, &words, masks, codes));
            if wanted.answer != Ok(count) || on_image.0 != wanted || live != on_image {
                let words = show::words(&words);
                return Err(format!("{places} places, {words}: {on_image:?}, live {live:?}, not {wanted:?}"));
            }
            lists += 1;
        }
    }
    Ok(lists)
}

/// What a run of either kind answers and writes, and the state after it.
fn outcome(
    run: &Run,
    mut state: State,
    call: impl FnOnce(&mut State, &mut [u32], &mut [u8]) -> Answer,
) -> (Outcome, State) {
    let (mut masks, mut codes) = (run.masks.clone(), run.codes.clone());
    let answer = call(&mut state, &mut masks, &mut codes);
    (Outcome { answer, masks, codes, price: None }, state)
}

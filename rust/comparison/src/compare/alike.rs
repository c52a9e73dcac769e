//! On a table that was prepared from an image a live run is a run, a live tick a tick, a live rebinding a rebinding, and
//! the live tick of a spindle is its tick.

use super::Summary;
use crate::generate::spindles::{self, Lent};
use crate::generate::{images, letters, runs, states, Random};
use reference::expectation::{Outcome, Run};
use reference::frames::text_of;
use reference::image::Image;
use reference::library::Library;
use reference::state::State;
use reference::Told;

/// An image that the library accepts, its text, and its table.
struct Prepared {
    image: Image,
    text: Vec<u8>,
    table: Vec<u8>,
}

/// Holds each against the other on so many images and, for each, so many states, fitting or not. Tells how often each
/// answer came; a difference panics.
pub fn live_alike(library: &dyn Library, images: u64, states: usize) -> Summary {
    let mut summary = Summary::default();
    for seed in 0..images {
        let random = &mut Random::new(seed);
        let prepared = prepared(library, random);
        for _ in 0..states {
            let state = states::state(random, prepared.image.shape());
            let words = random.pick(&[1, 5, 30]);
            let run = runs::run(random, words);
            let rebinding = runs::rebinding(random, prepared.image.entries.len());
            let lent = spindles::lent(random, &state);
            let numbers = [
                ("live_run", same_run(library, &prepared, &state, &run, seed)),
                ("live_tick", same_tick(library, &prepared, &state, run.words[0], seed)),
                ("live_rebind", same_rebinding(library, &prepared, &state, rebinding, seed)),
                ("live_spin", same_spin(library, &prepared, &lent, run.words[0], seed)),
            ];
            for answered in numbers {
                *summary.answers.entry(answered).or_insert(0) += 1;
            }
        }
    }
    summary
}

fn prepared(library: &dyn Library, random: &mut Random) -> Prepared {
    loop {
        let image = images::accepted(random);
        let text = letters::sizes(random, text_of(&image.frames()));
        let mut table = vec![0; image.frames().len() * 10];
        if library.prepare(&text, &mut table).is_ok() {
            return Prepared { image, text, table };
        }
    }
}

/// Makes both runs and hands back the number answered.
fn same_run(library: &dyn Library, prepared: &Prepared, state: &State, run: &Run, seed: u64) -> u8 {
    let made = |live: bool| {
        let (mut masks, mut codes) = (run.masks.clone(), run.codes.clone());
        let mut after = *state;
        let answer = if live {
            library.live_run(&prepared.table, &mut after, &run.words, &mut masks, &mut codes)
        } else {
            library.run(&prepared.text, &mut after, &run.words, &mut masks, &mut codes)
        };
        (Outcome { answer, masks, codes, price: None }, after)
    };
    let (wanted, given) = (made(false), made(true));
    assert_eq!(wanted, given, "seed {seed}, {state:?}");
    given.0.answer.number()
}

/// Makes both ticks and hands back the number answered.
fn same_tick(library: &dyn Library, prepared: &Prepared, state: &State, word: u16, seed: u64) -> u8 {
    let (mut after, mut after_live) = (*state, *state);
    let ticked = library.tick(&prepared.text, &mut after, word);
    let live = library.live_tick(&prepared.table, &mut after_live, word);
    assert_eq!((ticked, after), (live, after_live), "seed {seed}, {state:?}");
    live.number()
}

/// Makes both rebindings and hands back the number answered.
fn same_rebinding(
    library: &dyn Library,
    prepared: &Prepared,
    state: &State,
    (number, scheme): (usize, usize),
    seed: u64,
) -> u8 {
    let (mut after, mut after_live) = (*state, *state);
    let rebound = library.rebind(&prepared.text, &mut after, number, scheme);
    let live = library.live_rebind(&prepared.table, &mut after_live, number, scheme);
    assert_eq!((rebound, after), (live, after_live), "seed {seed}, {number} to {scheme}, {state:?}");
    live.number()
}

/// Makes both ticks of a spindle and hands back the number answered.
fn same_spin(library: &dyn Library, prepared: &Prepared, lent: &Lent, word: u16, seed: u64) -> u8 {
    let (mut after, mut after_live) = (lent.clone(), lent.clone());
    let ticked = library.spin(&mut after.states, &mut after.taken, lent.spindle, &prepared.text, word);
    let Lent { states, taken, spindle } = &mut after_live;
    let live = library.live_spin(states, taken, *spindle, &prepared.table, word);
    assert_eq!((ticked, after), (live, after_live), "seed {seed}, {lent:?}");
    live.number()
}

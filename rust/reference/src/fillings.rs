//! How often the stack fills: each list of words is run from a fresh state, one by one, and counted by how its run ends. And how many lists
//! take a chart's walk too deep, by the walk alone.

use crate::chart::Chart;
use crate::image::Image;
use crate::machine;
use crate::state::State;
use crate::walk::walk;
use interface::{Fillings, Refusal, CONDITIONS, COUNTED_BITS, COUNTED_TICKS};

/// Whether so many ticks and conditions are refused with 28, for any of its grounds.
pub fn too_many(ticks: usize, conditions: usize) -> bool {
    let product = ticks as u128 * conditions as u128;
    product > COUNTED_BITS as u128 || conditions > CONDITIONS || ticks > COUNTED_TICKS
}

/// Hands on each list of so many words in which no conditions but the first so many are ever 1, each list once; 28 refuses neither.
pub fn each_list(ticks: usize, conditions: usize, mut look: impl FnMut(&[u16])) {
    let last = ((1u32 << conditions) - 1) as u16;
    let mut words = vec![0; ticks];
    loop {
        look(&words);
        // the next list: the last word that can be raised is, and those behind it begin again
        let Some(at) = words.iter().rposition(|word| *word < last) else {
            return;
        };
        words[at] += 1;
        words[at + 1..].fill(0);
    }
}

/// What stops the run of a list of words: 17, 18 or nothing.
pub fn stopped(image: &Image, fresh: &State, words: &[u16]) -> Option<Refusal> {
    let mut state = *fresh;
    for (at, word) in words.iter().enumerate() {
        match machine::tick(image, &state, *word) {
            Ok(advanced) => state = advanced.state,
            Err(refusal) => return Some(refusal.after(at)),
        }
    }
    None
}

/// All lists of so many words with so many conditions, by how their runs from this state end.
pub fn counts(image: &Image, fresh: &State, ticks: usize, conditions: usize) -> Fillings {
    let mut counts = Fillings::default();
    each_list(ticks, conditions, |words| match stopped(image, fresh, words) {
        None => counts.ended += 1,
        Some(Refusal::Full { .. }) => counts.full += 1,
        Some(_) => counts.unmatched += 1,
    });
    counts
}

/// Whether the walk over these words has a call that finds as many schemes open as there are places. A drop is no call.
pub fn too_deep(chart: &Chart, places: usize, words: &[u16]) -> bool {
    walk(chart, places, words).iter().any(|tick| tick.calls() && tick.open == places)
}

/// How many of the lists take the walk too deep.
pub fn walked(chart: &Chart, places: usize, ticks: usize, conditions: usize) -> u32 {
    let mut deep = 0;
    each_list(ticks, conditions, |words| deep += u32::from(too_deep(chart, places, words)));
    deep
}

//! How many lists of words drop to the handler. The library counts the lists that a full stack ends, and a drop ends none; so here the
//! same lists are ticked on its table, those that lead to one state together, and the ends that they meet are held to its count.

use std::collections::HashMap;

use fairleadow::{Fillings, Library, Meaning, Refusal, State};

use super::Lists;
use crate::problem::Problem;
use crate::trace::fresh;

/// Of all lists those that drop at least once, and those that find the stack full: these, and those that it ends.
#[derive(Clone, Copy, Debug, Default, PartialEq, Eq)]
pub struct Drops {
    pub dropped: u32,
    pub found_full: u32,
}

/// What can differ between the states of one run, and whether there was a drop.
type Key = (u8, [u8; 32], [bool; 16], [u8; 32], [u8; 32], bool);

/// The states after so many ticks, each with how many lists of as many words lead there.
type Met = HashMap<Key, (State, u32)>;

fn add(met: &mut Met, state: State, dropped: bool, lists: u32) {
    let State { depth, places, results, numbers, servers, .. } = state;
    met.entry((depth, places, results, numbers, servers, dropped)).or_insert((state, 0)).1 += lists;
}

/// The drops of a stack, on a table, beside what was counted of it.
pub fn drops(
    library: &dyn Library,
    table: &[u8],
    places: usize,
    lists: Lists,
    counted: &Fillings,
) -> Result<Drops, Problem> {
    let (mut met, mut drops, mut full, mut unmatched) = (Met::new(), Drops::default(), 0, 0);
    add(&mut met, fresh(places)?, false, 1);
    for left in (0..lists.ticks).rev() {
        let mut next = Met::new();
        for ((.., dropped), (state, count)) in met {
            for word in 0..1u32 << lists.conditions {
                let mut state = state;
                let ticked = library.live_tick(table, &mut state, word as u16);
                let all = count << (left * lists.conditions);
                match ticked {
                    Ok(ticked) => {
                        let dropped = dropped || library.meaning(ticked.code) == Meaning::Drop;
                        add(&mut next, state, dropped, count);
                        continue;
                    }
                    Err(Refusal::Full { .. }) => {
                        full += all;
                        drops.found_full += all;
                    }
                    Err(_) => {
                        unmatched += all;
                        drops.found_full += if dropped { all } else { 0 };
                    }
                }
                drops.dropped += if dropped { all } else { 0 };
            }
        }
        met = next;
    }
    let ended: u32 = met.iter().filter(|((.., dropped), _)| *dropped).map(|(_, (_, count))| count).sum();
    if (full, unmatched) != (counted.full, counted.unmatched) {
        let what = format!(
            "of a stack of {places} {full} lists that fill it are found, and the library counts {}",
            counted.full
        );
        return Err(Problem::internal(what));
    }
    Ok(Drops { dropped: drops.dropped + ended, found_full: drops.found_full + ended })
}

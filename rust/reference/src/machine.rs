//! The stack machine over a decoded image: fitness (15), one tick, and the refusals 17 and 18 of a tick.

use crate::answer::Refusal;
use crate::image::{Image, Label, Row, FUNCTION_CALL, HOME, OPERATION_CALL, PLAIN, RETURN};
use crate::state::{leave_alone, State};

/// What one finished tick emits and the state after it.
pub struct Advanced {
    pub mask: u32,
    pub code: u8,
    pub state: State,
}

/// Whether a state fits an image (15).
pub fn fits(image: &Image, state: &State) -> bool {
    let size = usize::from(state.size);
    let depth = usize::from(state.depth);
    if !(1..=32).contains(&size) || !(1..=size).contains(&depth) {
        return false;
    }
    let filled = &state.places[..depth];
    filled.iter().all(|l| usize::from(*l) < image.labels.len())
        && lists(state).iter().all(|list| list[depth..].iter().all(|byte| *byte == 0))
        && bottom_fits(image, state)
        && (1..depth).all(|at| stands_above(image, state, at))
        && (2..=16).all(|number| serves(image, number, state.serving[usize::from(number) - 1]))
}

/// What a state holds for each place.
fn lists(state: &State) -> [&[u8; 32]; 3] {
    [&state.places, &state.numbers, &state.servers]
}

/// Scheme 1 or the handler stands at the bottom and remembers its own number twice.
fn bottom_fits(image: &Image, state: &State) -> bool {
    let bottom = state.places[0];
    let remembered = |scheme: u8| state.numbers[0] == scheme && state.servers[0] == scheme;
    if handles(image, bottom) {
        remembered(image.handler)
    } else {
        label(image, bottom).owner == 1 && remembered(1)
    }
}

/// Whether a scheme can be called, and so serve.
fn callable(image: &Image, scheme: u8) -> bool {
    2 <= scheme && usize::from(scheme) <= image.entries.len()
}

/// Whether this scheme may serve this number: any that can be called, but a number above the last scheme and the handler's only their
/// own.
fn serves(image: &Image, number: u8, scheme: u8) -> bool {
    if callable(image, number) && number != image.handler {
        callable(image, scheme)
    } else {
        scheme == number
    }
}

/// Whether this label at the bottom means that the handler is there: it is the handler's, or its End's.
pub fn handles(image: &Image, bottom: u8) -> bool {
    image.handler != 0 && (bottom == 1 || label(image, bottom).owner == image.handler)
}

/// Whether the label below this place is a call, whose number is remembered here, and the label here belongs to the scheme that
/// served it.
fn stands_above(image: &Image, state: &State, at: usize) -> bool {
    let (kept, above) = (label(image, state.places[at - 1]), state.places[at]);
    kept.calls()
        && state.numbers[at] == kept.called
        && callable(image, state.servers[at])
        && (above == 1 || label(image, above).owner == state.servers[at])
}

fn label(image: &Image, number: u8) -> &Label {
    &image.labels[usize::from(number)]
}

fn entry(image: &Image, scheme: u8) -> u8 {
    image.entries[usize::from(scheme) - 1]
}

/// The rows of a label that match.
pub fn matching<'a>(
    image: &'a Image,
    results: &'a [bool; 16],
    from: u8,
    word: u16,
) -> impl Iterator<Item = &'a Row> {
    let called = label(image, from).called;
    let bit_agrees = move |bit: u8| bit == 2 || results[usize::from(called) - 1] == (bit == 1);
    let rows = image.rows.iter().filter(move |row| row.from == from);
    rows.filter(move |row| word & row.care == row.values && bit_agrees(row.function_bit))
}

/// The label that the row taken leads to: of those that match, the last of those whose care masks have most ones.
fn next_label(image: &Image, results: &[bool; 16], from: u8, word: u16) -> Option<u8> {
    // of equals this hands back the last
    matching(image, results, from, word).max_by_key(|row| row.care.count_ones()).map(|row| row.next)
}

/// The label whose row the tick of a fitting state takes, if it takes one: the one at the top, or beneath a return.
pub fn row_label(image: &Image, state: &State) -> Option<u8> {
    let top = usize::from(state.depth) - 1;
    match label(image, state.places[top]).kind {
        PLAIN => Some(state.places[top]),
        RETURN if top > 0 => Some(state.places[top - 1]),
        _ => None,
    }
}

/// One tick of a fitting state, or 17 or 18. Results go by the number that the scheme at the top was called by, and a call opens the
/// scheme that serves its number then. A call's own result is written before it clears a bit.
pub fn tick(image: &Image, state: &State, word: u16) -> Result<Advanced, Refusal> {
    let top = usize::from(state.depth) - 1;
    let at = state.places[top];
    let here = *label(image, at);
    let mut after = *state;
    if here.result != 0 {
        after.results[usize::from(state.numbers[top]) - 1] = here.result == 2;
    }
    let code = match here.kind {
        HOME => {
            after.places[top] = entry(image, 1);
            0x04
        }
        // the handler's own End: the word goes unread, and a home tick follows
        RETURN if top == 0 => {
            leave_alone(&mut after, 0, 1);
            0x03
        }
        RETURN => {
            let beneath = state.places[top - 1];
            let next = next_label(image, &state.results, beneath, word).ok_or(Refusal::NoRow { ticks: 0 })?;
            (after.places[top], after.numbers[top], after.servers[top]) = (0, 0, 0);
            after.places[top - 1] = next;
            after.depth -= 1;
            0x03
        }
        OPERATION_CALL | FUNCTION_CALL if state.depth == state.size => drop_all(image, &mut after)?,
        OPERATION_CALL | FUNCTION_CALL => {
            let server = state.serving[usize::from(here.called) - 1];
            after.places[top + 1] = entry(image, server);
            (after.numbers[top + 1], after.servers[top + 1]) = (here.called, server);
            after.depth += 1;
            after.results[usize::from(here.called) - 1] = false;
            let base = if here.kind == OPERATION_CALL { 0x10 } else { 0x40 };
            base + here.called
        }
        _ => {
            after.places[top] =
                next_label(image, &state.results, at, word).ok_or(Refusal::NoRow { ticks: 0 })?;
            0x00
        }
    };
    Ok(Advanced { mask: here.mask, code, state: after })
}

/// Empties a full stack and starts the handler at the bottom with its bit at 0; or 17, where there is none or it is there already.
fn drop_all(image: &Image, state: &mut State) -> Result<u8, Refusal> {
    if image.handler == 0 || handles(image, state.places[0]) {
        return Err(Refusal::Full { ticks: 0 });
    }
    leave_alone(state, entry(image, image.handler), image.handler);
    state.results[usize::from(image.handler) - 1] = false;
    Ok(0x60)
}

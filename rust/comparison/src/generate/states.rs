//! States that fit an image, and states that hardly do.

use super::images::owned;
use super::Random;
use reference::image::Label;
use reference::state::{Shape, State, OWN};

/// A state for an image of this shape, fitting or not.
pub fn state(random: &mut Random, shape: Shape) -> State {
    let mut state = fitting(random, shape);
    if random.once_in(3) {
        for _ in 0..random.within(1, 2) {
            spoil(random, shape, &mut state);
        }
    }
    state
}

/// A stack that a fitting state may hold, with scheme 1 or the handler at the bottom, each label above a call belonging to the
/// scheme that served the number called then, often another than its own. It is often full.
pub fn fitting(random: &mut Random, shape: Shape) -> State {
    let most = random.pick(&[3, 32]);
    let mut state = State { size: random.within(1, most) as u8, depth: 1, ..State::NONE };
    state.results = std::array::from_fn(|_| random.once_in(2));
    let swaps = !random.once_in(3);
    state.serving = if swaps { binding(random, shape) } else { OWN };
    let deep = random.once_in(4);
    let mut scheme = if shape.handler != 0 && random.once_in(3) { shape.handler } else { 1 };
    let mut number = scheme;
    loop {
        let label = wanted(random, shape.labels, scheme, if deep { 40 } else { 4 });
        let top = usize::from(state.depth) - 1;
        (state.places[top], state.numbers[top], state.servers[top]) = (label, number, scheme);
        let label = shape.label(label);
        if !label.calls() || state.depth == state.size || !deep && random.once_in(8) {
            return state;
        }
        number = label.called;
        // a table at fault may call number 0 or 1, which no scheme of that number serves
        scheme = if number < 2 || swaps && random.once_in(2) { callable(random, shape) } else { number };
        state.depth += 1;
    }
}

fn callable(random: &mut Random, shape: Shape) -> u8 {
    random.within(2, shape.schemes.max(2)) as u8
}

/// Some numbers are served by other schemes than their own. What stands for number 1 may be anything.
fn binding(random: &mut Random, shape: Shape) -> [u8; 16] {
    let mut serving = OWN;
    for number in 2..=16 {
        let own = number == shape.handler || usize::from(number) > shape.schemes;
        if !own && !random.once_in(4) {
            serving[usize::from(number) - 1] = callable(random, shape);
        }
    }
    if random.once_in(8) {
        serving[0] = random.pick(&[0, 2, 16, 17, 255]);
    }
    serving
}

/// A label of the scheme, a call rather than another if one is met in less than so many tries.
fn wanted(random: &mut Random, labels: &[Label], scheme: u8, tries: usize) -> u8 {
    for _ in 0..random.below(tries) {
        let label = owned(random, labels, scheme);
        if labels[usize::from(label)].calls() {
            return label;
        }
    }
    owned(random, labels, scheme)
}

fn spoil(random: &mut Random, shape: Shape, state: &mut State) {
    let last = (shape.labels.len() - 1) as u8;
    let depth = state.depth;
    let at = random.below(usize::from(depth).clamp(1, 32));
    let any = random.below(usize::from(last) + 1) as u8;
    match random.below(19) {
        0 => state.size = random.pick(&[0, 1, 32, 33, 255, depth.wrapping_sub(1)]),
        1 => state.depth = random.pick(&[0, 1, 32, 33, 255, state.size.wrapping_add(1)]),
        2 => state.depth = random.pick(&[depth.wrapping_add(1), depth.wrapping_sub(1)]),
        3 => state.places[random.below(32)] = random.byte(),
        4 => state.places[at] = last.wrapping_add(1),
        5 => state.places[at] = random.pick(&[0, 1]),
        6 => {
            (state.depth, state.places) = (1, [0; 32]);
            (state.numbers, state.servers) = ([0; 32], [0; 32]);
            let scheme = random.pick(&[1, shape.handler]);
            (state.places[0], state.numbers[0], state.servers[0]) = (any, scheme, scheme);
        }
        7 => {
            // what is remembered above it goes with it where there is something above
            let at = at.min(usize::from(depth).clamp(2, 32) - 2);
            (state.places[at], state.numbers[at + 1]) = (any, shape.label(any).called);
        }
        8 => state.places[at] = any,
        _ => misremember(random, shape, state, at),
    }
}

/// Changes what a state remembers of a place in use or above the depth, or which scheme serves a number.
fn misremember(random: &mut Random, shape: Shape, state: &mut State, at: usize) {
    let (schemes, depth) = (shape.schemes as u8, usize::from(state.depth));
    let any = random.byte();
    let scheme = random.pick(&[0, 1, 2, 3, 16, 17, any, schemes, schemes + 1, shape.handler]);
    let above = random.within(depth.min(31), 31);
    let number = usize::from(random.pick(&[2, 3, 16, schemes, schemes + 1, shape.handler])).clamp(2, 16);
    match random.below(12) {
        0 => state.numbers[0] = scheme,
        1 => state.servers[0] = scheme,
        2 => (state.numbers[0], state.servers[0]) = (scheme, scheme),
        3 => state.numbers[at] = scheme,
        4 => state.servers[at] = scheme,
        5 => state.numbers[above] = scheme,
        6 => state.servers[above] = scheme,
        7 => (state.numbers[at], state.servers[at]) = (state.servers[at], state.numbers[at]),
        8 | 9 => {
            // a label that this scheme could hold, so that the scheme alone is wrong
            let top = depth.clamp(1, 32) - 1;
            (state.places[top], state.servers[top]) = (owned(random, shape.labels, scheme), scheme);
        }
        _ => state.serving[number - 1] = scheme,
    }
}

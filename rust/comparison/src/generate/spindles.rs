//! Heads of four spindles: lists of states with a record of the places taken, in order or not; charts that call deep, and lists of
//! calls that fill the store of places.

use super::{images, runs, Random};
use interface::{SPINDLES, STORE};
use reference::check::chart_of;
use reference::frames::Frame;
use reference::image::Image;
use reference::spindle_walks::Turn;
use reference::state::{fresh_state, State};
use reference::translator;

/// What the tick of a spindle is lent besides its image and a word.
#[derive(Clone, Debug, PartialEq, Eq)]
pub struct Lent {
    pub states: Vec<State>,
    pub taken: usize,
    pub spindle: usize,
}

/// The list that a state stands in, with the places that are taken. All are often, or nearly all; three lists in four are in order but for
/// the state itself.
pub fn lent(random: &mut Random, own: &State) -> Lent {
    let mut states: Vec<State> = (0..SPINDLES).map(|_| other(random)).collect();
    let spindle = random.below(SPINDLES);
    states[spindle] = *own;
    let any = random.within(35, 66);
    let together = random.pick(&[STORE, STORE, STORE - 1, STORE - 2, any, any]);
    share(random, &mut states, spindle, together.saturating_sub(own.depth.into()));
    let mut lent = Lent { taken: sum(&states), states, spindle };
    if random.once_in(4) {
        spoil(random, &mut lent);
    }
    lent
}

fn sum(states: &[State]) -> usize {
    states.iter().map(|state| usize::from(state.depth)).sum()
}

/// A state of another spindle: fresh, of zeros, or of any bytes. Only its depth matters.
fn other(random: &mut Random) -> State {
    match random.below(3) {
        0 => fresh_state(random.within(1, 32)).expect("a good size"),
        1 => State::NONE,
        _ => State {
            size: random.byte(),
            depth: random.byte(),
            places: std::array::from_fn(|_| random.byte()),
            results: std::array::from_fn(|_| random.once_in(2)),
            serving: std::array::from_fn(|_| random.byte()),
            numbers: std::array::from_fn(|_| random.byte()),
            servers: std::array::from_fn(|_| random.byte()),
        },
    }
}

/// Gives the other spindles so many places together, as far as a byte holds them.
fn share(random: &mut Random, states: &mut [State], spindle: usize, places: usize) {
    let (mut left, mut others) = (places, SPINDLES - 1);
    for at in (0..SPINDLES).filter(|at| *at != spindle) {
        others -= 1;
        let given = if others == 0 { left } else { random.within(0, left) };
        states[at].depth = given.min(255) as u8;
        left -= given;
    }
}

/// Something that is wrong with the list, the record or the spindle's number.
fn spoil(random: &mut Random, lent: &mut Lent) {
    let another = (lent.spindle + random.within(1, SPINDLES - 1)) % SPINDLES;
    match random.below(8) {
        0 | 1 => {
            let length = random.pick(&[0, 1, 2, 3, 3, 5, 5, 8]);
            lent.states.resize(length, State { depth: random.below(2) as u8, ..State::NONE });
            lent.taken = sum(&lent.states);
        }
        2 | 3 => {
            let more = random.pick(&[1, usize::MAX, 4, 64, 256, 65_536, 1 << 32]);
            lent.taken = lent.taken.wrapping_add(more);
        }
        4 => lent.taken = random.pick(&[0, 4, STORE, STORE + 1, usize::MAX]),
        5 => take_more(random, lent, another),
        6 => lent.states[another].depth ^= 1 << random.below(8),
        _ => {
            let high = random.pick(&[4, 8, 256, 65_536, 1 << 32, usize::MAX - 3]);
            lent.spindle += high;
        }
    }
}

/// Another spindle takes places beyond those that there are, recorded rightly or by what a byte holds of them.
fn take_more(random: &mut Random, lent: &mut Lent, another: usize) {
    let more = random.pick(&[1, 2, 64, 192, 255]);
    lent.states[another].depth = lent.states[another].depth.saturating_add(more);
    let all = sum(&lent.states);
    lent.taken = if random.once_in(2) { all } else { all % 256 };
}

/// Records of a chart, its image, and the size of the stack.
pub struct Drawn {
    pub records: Vec<Frame>,
    pub image: Image,
    pub size: usize,
}

/// Four spindles, most of them with charts that call deep; their stacks have places that sum to what there is, to more, or to few.
pub fn four(random: &mut Random) -> [Drawn; SPINDLES] {
    let sizes = random.pick(&[&[16][..], &[3, 6, 24, 32], &[4, 32, 32], &[20, 32], &[1, 2, 3, 6]]);
    std::array::from_fn(|_| {
        let (records, image) = if random.once_in(8) { images::translated(random) } else { deep(random) };
        Drawn { records, image, size: random.pick(sizes) }
    })
}

/// A chart whose schemes call each other as long as the words want it, and its image. Most have a handler, the last scheme, which calls
/// none of the others as a rule.
pub fn deep(random: &mut Random) -> (Vec<Frame>, Image) {
    let (callers, handled) = (random.within(2, 3), !random.once_in(3));
    let schemes = callers + usize::from(handled);
    let mut records = Vec::new();
    for scheme in 1..=schemes {
        let handler = scheme > callers;
        let called = match random.below(6) {
            0 => random.within(2, schemes),
            _ if handler => 0,
            _ => random.within(2, callers),
        };
        caller(random, &mut records, scheme as u8, called as u8, u8::from(handler));
    }
    let image = translator::image_of(&chart_of(&records).expect("a valid chart")).expect("few rows");
    (records, image)
}

/// A scheme that calls a number, or none where that is 0, perhaps only where a condition holds, and perhaps goes on before its End.
fn caller(random: &mut Random, records: &mut Vec<Frame>, scheme: u8, called: u8, mark: u8) {
    let (asks, goes_on) = (scheme > 1 && random.once_in(2), random.once_in(3));
    let first = records.len() as u8 + 1;
    let end = first + u8::from(asks) + 1 + u8::from(goes_on);
    records.push([0, scheme, mark, first, 0, 0, 0, 0, 0, 0]);
    if asks {
        records.push([3, scheme, random.below(3) as u8, end, first + 1, 0, 0, 0, 0, 0]);
    }
    let next = records.len() as u8 + 1;
    records.push(if called != 0 && random.once_in(3) {
        [4, scheme, called, next, end, 0, 0, 0, 0, 0]
    } else {
        [2, scheme, called, next, 0, random.below(3) as u8, 0, 0, 0, random.byte()]
    });
    if goes_on {
        records.push([2, scheme, 0, end, 0, random.below(3) as u8, 0, 0, 0, random.byte()]);
    }
    records.push([1, scheme, 0, 0, 0, 0, 0, 0, 0, 0]);
}

/// Calls on the spindles, one of which is favoured for a while, some on a spindle that there is not, and in some lists rebindings among
/// them.
pub fn turns(random: &mut Random, spindles: &[Drawn; SPINDLES]) -> Vec<Turn> {
    let count = random.pick(&[8, 100, 200, 200]);
    let words = if random.once_in(3) { runs::words(random, count) } else { vec![0xFFFF; count] };
    let swaps = random.once_in(2);
    let mut favoured = 0;
    let turn = |word: u16| {
        if random.once_in(12) {
            favoured = random.below(SPINDLES);
        }
        let spindle = if random.once_in(2) { favoured } else { random.below(SPINDLES) };
        if swaps && random.once_in(12) {
            let (number, scheme) = runs::rebinding(random, spindles[spindle].image.entries.len());
            return Turn::Rebind { spindle, number, scheme };
        }
        let high = if random.once_in(40) { random.pick(&[4, 256, 1 << 32]) } else { 0 };
        let word = if random.once_in(12) { random.number() as u16 } else { word };
        Turn::Spin { spindle: spindle + high, word }
    };
    words.into_iter().map(turn).collect()
}

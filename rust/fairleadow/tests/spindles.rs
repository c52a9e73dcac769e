//! Ticks of spindles by the C functions: which bytes of the list they leave, other lengths of it, every value of each byte, and records and
//! numbers of all widths.

use comparison::samples::with_handler;
use proved::{c, Library, Proved, Refusal, Tick, SPINDLES, TABLE};
use reference::entry::translated;
use reference::frames::text_of;
use reference::{fresh_state, Reference, State};

/// The bytes of a state.
const BYTES: usize = 130;

/// The number, index and count written, the record of places, and what *mask and *code, 123 and 45 before, hold then.
type Said = ((u8, u64, u64), u64, u32, u8);

/// Two schemes that call whatever the word is, and a handler.
fn image() -> Vec<u8> {
    translated(&text_of(&with_handler())).expect("a valid chart")
}

fn prepared(image: &[u8]) -> Vec<u8> {
    let mut table = vec![0; TABLE];
    let length = Proved.prepare(image, &mut table).expect("an accepted image");
    table.truncate(length);
    table
}

/// By the image and by the table, with the refusal of a ground that is no good.
fn calls() -> [(c::Spin, Vec<u8>, u8); 2] {
    let image = image();
    let table = prepared(&image);
    [(c::fairleadow_spin, image, 1), (c::fairleadow_live_spin, table, 11)]
}

/// A tick by word 0, on the first states of a list.
fn spin(
    call: c::Spin,
    ground: &[u8],
    list: &mut [c::State],
    states: usize,
    taken: u64,
    spindle: u64,
) -> Said {
    assert!(states <= list.len());
    let (mut mask, mut code, mut index, mut count, mut record) = (123, 45, 9, 9, taken);
    // SAFETY: all that the call is handed lives here and is lent to it alone.
    let number = unsafe {
        call(
            list.as_mut_ptr(),
            states as u64,
            &mut record,
            spindle,
            ground.as_ptr(),
            ground.len() as u64,
            0,
            &mut mask,
            &mut code,
            &mut index,
            &mut count,
        )
    } as u8;
    ((number, index, count), record, mask, code)
}

fn refused(number: u8, taken: u64) -> Said {
    ((number, 0, 0), taken, 123, 45)
}

fn fresh(size: usize) -> c::State {
    c::State::from(&fresh_state(size).expect("a good size"))
}

/// A list of four with a state of another byte before and behind it.
fn list(own: c::State, spindle: usize) -> Vec<c::State> {
    let mut list = vec![c::State { depth: 1, ..c::State::filled(0xAB) }; SPINDLES + 2];
    list[1 + spindle] = own;
    list
}

#[test]
fn result_bytes_of_the_spindle_come_back_as_0_or_1_and_no_other_byte_changes() {
    for (call, ground, _) in calls() {
        for spindle in 0..SPINDLES {
            let mut all = list(c::State { results: [7; 16], ..fresh(3) }, spindle);
            let mut wanted = all.clone();
            wanted[1 + spindle].results = [1; 16];
            wanted[1 + spindle].places[0] = 2;
            let said = spin(call, &ground, &mut all[1..], SPINDLES, 4, spindle as u64);
            assert_eq!(said, ((0, 0, 1), 4, 0, 0x04));
            assert_eq!(all, wanted);
            // the call takes a place: the bit of number 1 is written, that of number 2 cleared
            let said = spin(call, &ground, &mut all[1..], SPINDLES, 4, spindle as u64);
            assert_eq!(said, ((0, 0, 1), 5, 1, 0x12));
            let own = &mut wanted[1 + spindle];
            (own.depth, own.places[1], own.results[1]) = (2, 3, 0);
            (own.numbers[1], own.servers[1]) = (2, 2);
            assert_eq!(all, wanted);
        }
    }
}

#[test]
fn refusals_leave_every_byte() {
    for (call, ground, number) in calls() {
        let own = c::State { results: [7; 16], ..fresh(1) };
        let mut all = list(own, 2);
        let kept = all.clone();
        let mut tried = |ground: &[u8], states, taken, spindle, wanted| {
            let said = spin(call, ground, &mut all[1..], states, taken, spindle);
            assert_eq!(said, refused(wanted, taken), "{states} states, {taken} taken, spindle {spindle}");
            assert!(all == kept);
        };
        for spindle in [4, 5, 255, 256, 258, 65_538, (1 << 32) + 2, u64::MAX - 1, u64::MAX] {
            tried(&[], 3, 99, spindle, 25);
        }
        tried(&ground[..ground.len() - 1], 3, 99, 2, number);
        for states in [0, 1, 2, 3, 5] {
            tried(&ground, states, 4, 2, 15);
        }
        for taken in [0, 3, 5, 64, 65, 260, 65_540, (1 << 32) + 4, u64::MAX - 3, u64::MAX] {
            tried(&ground, SPINDLES, taken, 2, 15);
        }
        // the others do not fit
        tried(&ground, SPINDLES, 4, 1, 15);
    }
}

/// The refusals of the tick itself, with all places taken and without: 17, where the handler is at the bottom, and 26.
#[test]
fn refused_ticks_leave_every_byte() {
    for (call, ground, _) in calls() {
        let mut calling = fresh(1);
        (calling.places[0], calling.results[4]) = (2, 7);
        // a drop on a full stack of one place needs none and gives none back
        let mut all = list(calling, 0);
        all[2].depth = 61;
        assert_eq!(spin(call, &ground, &mut all[1..], SPINDLES, 64, 0), ((0, 0, 1), 64, 1, 0x60));
        calling.size = 2;
        let mut all = list(calling, 0);
        all[2].depth = 61;
        let kept = all.clone();
        assert_eq!(spin(call, &ground, &mut all[1..], SPINDLES, 64, 0), refused(26, 64));
        assert!(all == kept);
        (all[2].depth, all[3].depth) = (60, 1);
        assert_eq!(spin(call, &ground, &mut all[1..], SPINDLES, 63, 0), ((0, 0, 1), 64, 1, 0x12));
    }
}

/// A library's answer, the list and the record after it.
fn made(
    library: &dyn Library,
    live: bool,
    ground: &[u8],
    start: &[State],
    taken: usize,
) -> (Result<Tick, Refusal>, Vec<State>, usize) {
    let (mut states, mut record) = (start.to_vec(), taken);
    let call = if live { <dyn Library>::live_spin } else { <dyn Library>::spin };
    (call(library, &mut states, &mut record, 1, ground, 0), states, record)
}

/// A state with one of its 130 bytes changed.
fn with_byte(state: &State, at: usize, byte: u8) -> State {
    let mut state = c::State::from(state);
    // SAFETY: all its fields are bytes, and this is one of them.
    unsafe { *std::ptr::from_mut(&mut state).cast::<u8>().add(at) = byte };
    State::from(&state)
}

/// The bytes of the spindle's own state and of another, each at each of its values: the library and the reference agree.
#[test]
fn every_byte_of_the_list_at_every_value() {
    let image = image();
    let table = prepared(&image);
    let mut start = [fresh_state(4).expect("a good size"); SPINDLES];
    let mut taken = SPINDLES;
    for _ in 0..2 {
        Proved.spin(&mut start, &mut taken, 1, &image, 0).expect("it is not refused");
    }
    assert_eq!((start[1].depth, taken), (2, 5));
    for spindle in [1, 2] {
        for at in 0..BYTES {
            for byte in 0..=255 {
                let mut states = start;
                states[spindle] = with_byte(&start[spindle], at, byte);
                for live in [false, true] {
                    let ground = if live { &table } else { &image };
                    let [wanted, given] = [&Reference as &dyn Library, &Proved]
                        .map(|library| made(library, live, ground, &states, taken));
                    assert_eq!(given, wanted, "byte {at} of state {spindle} is {byte}");
                }
            }
        }
    }
}

/// A depth of another spindle at each of its values, a second one at half of it, and records from 0 to more than their sum.
#[test]
fn every_record_by_every_depth() {
    let image = image();
    let table = prepared(&image);
    for depth in 0..=255 {
        let mut states = [fresh_state(4).expect("a good size"); SPINDLES];
        (states[0].depth, states[3].depth) = (depth, 1 + depth / 2);
        for taken in 0..=400 {
            let [wanted, given] = [&Reference as &dyn Library, &Proved]
                .map(|library| made(library, true, &table, &states, taken));
            assert_eq!(given, wanted, "depth {depth}, {taken} taken");
        }
    }
}

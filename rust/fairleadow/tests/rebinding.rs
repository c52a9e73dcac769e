//! Rebindings by the C functions: which bytes they leave, and every value of each byte of a state, number and scheme.

use comparison::generate::{images, runs, states, Random};
use comparison::samples::{most_schemes, with_handler};
use proved::{c, Library, Proved, TABLE};
use reference::entry::translated;
use reference::frames::text_of;
use reference::image::image_of;
use reference::prepare::table_of;
use reference::{fresh_state, Reference, State};

fn image() -> Vec<u8> {
    translated(&text_of(&with_handler())).expect("a valid chart")
}

fn prepared(image: &[u8]) -> Vec<u8> {
    let mut table = vec![0; TABLE];
    let length = Proved.prepare(image, &mut table).expect("an accepted image");
    table.truncate(length);
    table
}

/// The number, index and count of a rebinding in the bytes of a state.
fn rebind(call: c::Rebind, ground: &[u8], state: &mut c::State, number: u64, scheme: u64) -> (u8, u64, u64) {
    let (mut index, mut count) = (9, 9);
    // SAFETY: all that the call is handed lives here and is lent to it alone.
    let said =
        unsafe { call(ground.as_ptr(), ground.len() as u64, state, number, scheme, &mut index, &mut count) }
            as u8;
    (said, index, count)
}

/// By the image and by the table, with the refusal of a ground that is no good.
fn calls() -> [(c::Rebind, Vec<u8>, u8); 2] {
    let image = image();
    let table = prepared(&image);
    [(c::fairleadow_rebind, image, 1), (c::fairleadow_live_rebind, table, 11)]
}

#[test]
fn result_bytes_come_back_as_0_or_1_and_one_binding_changes() {
    for (call, ground, _) in calls() {
        let mut state = c::State::from(&fresh_state(3).expect("a good size"));
        (state.results[2], state.results[3], state.serving[0]) = (7, 255, 99);
        let mut wanted = state;
        (wanted.results[2], wanted.results[3], wanted.serving[1]) = (1, 1, 3);
        assert_eq!(rebind(call, &ground, &mut state, 2, 3), (0, 0, 0));
        assert_eq!(state, wanted);
    }
}

#[test]
fn refusals_leave_every_byte() {
    for (call, ground, number) in calls() {
        let mut state = c::State::from(&fresh_state(3).expect("a good size"));
        state.results[4] = 7;
        let kept = state;
        for (bound, scheme) in
            [(0, 2), (1, 2), (3, 2), (3, 3), (4, 2), (2, 0), (2, 1), (2, 4), (258, 2), (2, 258)]
        {
            assert_eq!(rebind(call, &ground, &mut state, bound, scheme), (22, 0, 0), "{bound} to {scheme}");
        }
        assert_eq!(rebind(call, &ground[..ground.len() - 1], &mut state, 2, 2), (number, 0, 0));
        assert_eq!(state, kept);
        state.numbers[20] = 1;
        let unfit = state;
        assert_eq!(rebind(call, &ground, &mut state, 2, 2), (15, 0, 0));
        assert_eq!(rebind(call, &ground, &mut state, 0, 0), (15, 0, 0));
        assert_eq!(state, unfit);
    }
}

#[test]
fn every_number_and_scheme_up_to_20_and_large_ones() {
    let wide = translated(&text_of(&most_schemes())).expect("a valid chart");
    let values: Vec<usize> =
        (0..=20).chain([255, 256, 258, 65_535, 65_538, 1 << 32, (1 << 32) + 2, usize::MAX]).collect();
    for image in [image(), wide] {
        let table = prepared(&image);
        for number in &values {
            for scheme in &values {
                let made = |library: &dyn Library, live: bool| {
                    let mut state = fresh_state(4).expect("a good size");
                    let answer = if live {
                        library.live_rebind(&table, &mut state, *number, *scheme)
                    } else {
                        library.rebind(&image, &mut state, *number, *scheme)
                    };
                    (answer, state)
                };
                let wanted = made(&Reference, false);
                assert!([made(&Proved, false), made(&Proved, true)] == [wanted; 2], "{number} to {scheme}");
            }
        }
    }
}

/// A state's bytes, each at each of its values, by a rebinding and by a tick: the library and the reference agree.
#[test]
fn every_byte_of_a_state_at_every_value() {
    let image = image();
    let table = prepared(&image);
    let mut deep = fresh_state(4).expect("a good size");
    assert_eq!(Proved.rebind(&image, &mut deep, 2, 3), Ok(0));
    // home, a call of 2 that scheme 3 serves, its operation; then back to scheme 2
    for _ in 0..2 {
        Proved.tick(&image, &mut deep, 0).expect("it is not refused");
    }
    assert_eq!((deep.numbers[1], deep.servers[1]), (2, 3));
    assert_eq!(Proved.rebind(&image, &mut deep, 2, 2), Ok(0));
    for start in [fresh_state(4).expect("a good size"), deep] {
        for at in 0..130 {
            for byte in 0..=255 {
                let state = with_byte(&start, at, byte);
                let rebound = |library: &dyn Library| {
                    let mut after = state;
                    (library.rebind(&image, &mut after, 2, 3), after)
                };
                let live = |library: &dyn Library| {
                    let (mut after, mut ticked) = (state, state);
                    let answer = library.live_rebind(&table, &mut after, 2, 3);
                    (answer, after, library.live_tick(&table, &mut ticked, 0), ticked)
                };
                assert_eq!(rebound(&Proved), rebound(&Reference), "byte {at} is {byte}");
                assert_eq!(live(&Proved), live(&Reference), "byte {at} is {byte}");
            }
        }
    }
}

/// A state with one of its 130 bytes changed.
fn with_byte(state: &State, at: usize, byte: u8) -> State {
    let mut state = c::State::from(state);
    match at {
        0 => state.size = byte,
        1 => state.depth = byte,
        2..34 => state.places[at - 2] = byte,
        34..50 => state.results[at - 34] = byte,
        50..66 => state.serving[at - 50] = byte,
        66..98 => state.numbers[at - 66] = byte,
        _ => state.servers[at - 98] = byte,
    }
    State::from(&state)
}

/// A fitting state stays fitting, and a rebinding changes no tick before the next call: one more rebinding takes it back.
#[test]
fn a_rebinding_is_taken_back_by_another() {
    let mut made = 0;
    for seed in 0..3_000 {
        let random = &mut Random::new(seed);
        let image = images::accepted(random);
        if image_of(&image.frames()).is_err() {
            continue;
        }
        let start = states::fitting(random, image.shape());
        let table = table_of(&image).concat();
        let (number, scheme) = runs::rebinding(random, image.entries.len());
        let mut state = start;
        if Proved.live_rebind(&table, &mut state, number, scheme) == Ok(0) {
            let before = usize::from(start.serving[number - 1]);
            assert_eq!(Proved.live_rebind(&table, &mut state, number, before), Ok(0), "seed {seed}");
            made += 1;
        }
        assert_eq!(state, start, "seed {seed}");
    }
    assert!(made > 500, "too few rebindings were made: {made}");
}

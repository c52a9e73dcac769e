//! Swapping schemes, by hand: a swap between two calls and in the middle of one, bits by numbers, what is refused and in which order,
//! drops and the handler, and a full stack.

use reference::frames::{text_of, Frame};
use reference::image::Image;
use reference::state::OWN;
use reference::walk::{walk_told, Signal};
use reference::{entry, fresh_state, Refusal, State};

/// Scheme 1 calls 2 with mask 1, then as a function; on a 1 an operation with mask 2 follows. Scheme 2 is one operation, mask 4, that
/// writes 0. Scheme 3 is two operations, masks 8 and 16, the second of which writes 1. Scheme 4 calls 2 with mask 32, and is the handler
/// where it is marked.
fn records(mark: u8) -> Vec<Frame> {
    vec![
        [0, 1, 0, 1, 0, 0, 0, 0, 0, 0],
        [2, 1, 2, 2, 0, 0, 0, 0, 0, 1],
        [4, 1, 2, 4, 3, 0, 0, 0, 0, 0],
        [2, 1, 0, 4, 0, 0, 0, 0, 0, 2],
        [1, 1, 0, 0, 0, 0, 0, 0, 0, 0],
        [0, 2, 0, 6, 0, 0, 0, 0, 0, 0],
        [2, 2, 0, 7, 0, 1, 0, 0, 0, 4],
        [1, 2, 0, 0, 0, 0, 0, 0, 0, 0],
        [0, 3, 0, 9, 0, 0, 0, 0, 0, 0],
        [2, 3, 0, 10, 0, 0, 0, 0, 0, 8],
        [2, 3, 0, 11, 0, 2, 0, 0, 0, 16],
        [1, 3, 0, 0, 0, 0, 0, 0, 0, 0],
        [0, 4, mark, 13, 0, 0, 0, 0, 0, 0],
        [2, 4, 2, 14, 0, 0, 0, 0, 0, 32],
        [1, 4, 0, 0, 0, 0, 0, 0, 0, 0],
    ]
}

fn image(mark: u8) -> Vec<u8> {
    entry::translated(&text_of(&records(mark))).expect("a valid chart")
}

fn decoded(mark: u8) -> Image {
    entry::image_from_text(&image(mark)).expect("its image")
}

/// Ticks so many times by word 0, and hands back the codes and masks.
fn ticked(image: &[u8], state: &mut State, count: usize) -> Vec<(u8, u32)> {
    let (mut masks, mut codes) = (vec![0; count], vec![0; count]);
    assert_eq!(entry::run(image, state, &vec![0; count], &mut masks, &mut codes), Ok(count));
    codes.into_iter().zip(masks).collect()
}

/// The codes and masks of the walk, by word 0 and these bindings of number 2.
fn walked(places: usize, servers: &[u8]) -> Vec<(u8, u32)> {
    let chart = entry::chart_from_text(&text_of(&records(0))).expect("a valid chart");
    let signal = |server: &u8| {
        let mut binding = OWN;
        binding[1] = *server;
        Signal { word: 0, binding }
    };
    let signals: Vec<Signal> = servers.iter().map(signal).collect();
    walk_told(&chart, places, &signals).iter().map(|tick| (tick.code, tick.mask)).collect()
}

#[test]
fn a_swap_between_two_calls_serves_the_second() {
    let image = image(0);
    let mut state = fresh_state(3).expect("a good size");
    let first = ticked(&image, &mut state, 4);
    assert_eq!(first, [(0x04, 0), (0x12, 1), (0x00, 4), (0x03, 0)]);
    assert_eq!(entry::rebind(&image, &mut state, 2, 3), Ok(0));
    assert_eq!((state.serving[1], state.serving[2]), (3, 3));
    let second = ticked(&image, &mut state, 5);
    assert_eq!(second, [(0x42, 0), (0x00, 8), (0x00, 16), (0x03, 0), (0x00, 2)]);
    assert_eq!([first, second].concat(), walked(3, &[2, 2, 2, 2, 3, 3, 3, 3, 3]));
}

#[test]
fn a_swap_in_the_middle_leaves_what_is_open() {
    let image = image(0);
    let mut state = fresh_state(3).expect("a good size");
    ticked(&image, &mut state, 2);
    let before = state;
    assert_eq!(entry::rebind(&image, &mut state, 2, 3), Ok(0));
    assert_eq!(State { serving: before.serving, ..state }, before);
    assert_eq!((state.numbers[1], state.servers[1]), (2, 2));
    let codes = ticked(&image, &mut state, 3);
    assert_eq!(codes, [(0x00, 4), (0x03, 0), (0x42, 0)]);
    assert_eq!((state.numbers[1], state.servers[1]), (2, 3));
    assert_eq!(walked(3, &[2, 2, 3, 3, 3])[2..], codes);
}

/// The binding of the call's own tick serves it: a swap right before the call does, one right behind it does not.
#[test]
fn the_binding_of_the_calls_own_tick_serves_it() {
    assert_eq!(walked(3, &[2, 3, 2])[2], (0x00, 8));
    assert_eq!(walked(3, &[2, 2, 3])[2], (0x00, 4));
}

#[test]
fn bits_go_by_numbers() {
    let image = image(0);
    let mut state = fresh_state(3).expect("a good size");
    assert_eq!(entry::rebind(&image, &mut state, 2, 3), Ok(0));
    state.results = [true; 16];
    ticked(&image, &mut state, 2);
    // the call clears the bit of number 2, not that of the scheme that serves it
    assert_eq!(state.results[1..4], [false, true, true]);
    state.results[2] = false;
    ticked(&image, &mut state, 2);
    assert_eq!(state.results[1..4], [true, false, true]);
}

#[test]
fn refusals_of_22() {
    let (plain, handled) = (image(0), image(1));
    let fresh = fresh_state(3).expect("a good size");
    let large = [17, 20, 255, 256, 258, 65_538, (1 << 32) + 2, usize::MAX];
    for image in [&plain, &handled] {
        for (number, scheme) in (0..=20).flat_map(|number| (0..=20).map(move |scheme| (number, scheme))) {
            let mut state = fresh;
            let answer = entry::rebind(image, &mut state, number, scheme);
            let handlers = image == &handled && number == 4;
            if (2..=4).contains(&number) && (2..=4).contains(&scheme) && !handlers {
                let mut wanted = fresh;
                wanted.serving[number - 1] = scheme as u8;
                assert_eq!((answer, state), (Ok(0), wanted));
            } else {
                assert_eq!((answer, state), (Err(Refusal::BadRebinding), fresh), "{number} to {scheme}");
            }
        }
        for number in large {
            let mut state = fresh;
            assert_eq!(entry::rebind(image, &mut state, number, 2), Err(Refusal::BadRebinding), "{number}");
            assert_eq!(entry::rebind(image, &mut state, 2, number), Err(Refusal::BadRebinding), "{number}");
            assert_eq!(state, fresh);
        }
    }
}

#[test]
fn the_image_is_tried_first_then_the_state_then_the_numbers() {
    let image = image(0);
    let mut state = State::NONE;
    assert_eq!(entry::rebind(&image[1..], &mut state, 0, 0), Err(Refusal::BadLength));
    assert_eq!(entry::rebind(&image, &mut state, 0, 0), Err(Refusal::Unfit));
    assert_eq!(entry::live_rebind(&[], &mut state, 0, 0), Err(Refusal::BadHeader));
    assert_eq!(state, State::NONE);
}

/// Another number may be served by the handler's scheme. It then goes by that number, and its return is no handler's.
#[test]
fn the_handlers_scheme_may_serve_another_number() {
    let image = image(1);
    let mut state = fresh_state(3).expect("a good size");
    assert_eq!(entry::rebind(&image, &mut state, 2, 4), Ok(0));
    assert_eq!(ticked(&image, &mut state, 3), [(0x04, 0), (0x12, 1), (0x12, 32)]);
    assert_eq!((state.numbers[..3].to_vec(), state.servers[..3].to_vec()), (vec![1, 2, 2], vec![1, 4, 4]));
    // the stack is full: all is dropped, and the handler goes by its own number
    assert_eq!(ticked(&image, &mut state, 1), [(0x60, 32)]);
    assert_eq!((state.depth, state.numbers[0], state.servers[0], state.numbers[1]), (1, 4, 4, 0));
    assert_eq!(state.serving[1], 4);
}

#[test]
fn the_handlers_return_leaves_scheme_1() {
    let image = decoded(1);
    let mut state = image.shape().state(2, &[1]);
    assert_eq!((state.numbers[0], state.servers[0]), (4, 4));
    assert_eq!(ticked(&text_of(&image.frames()), &mut state, 1), [(0x03, 0)]);
    assert_eq!(state, fresh_state(2).expect("a good size"));
}

#[test]
fn after_17_a_rebinding_succeeds_and_the_stack_stays_full() {
    let image = image(0);
    let mut state = fresh_state(1).expect("a good size");
    ticked(&image, &mut state, 1);
    for server in [2, 3, 4] {
        let before = state;
        let (mut masks, mut codes) = ([0], [0]);
        let answer = entry::run(&image, &mut state, &[0], &mut masks, &mut codes);
        assert_eq!((answer, state), (Err(Refusal::Full { ticks: 0 }), before));
        assert_eq!(entry::rebind(&image, &mut state, 2, server), Ok(0));
    }
}

/// What stands for number 1 is kept and not tried.
#[test]
fn the_entry_of_number_1_is_kept() {
    let image = image(0);
    let mut state = fresh_state(3).expect("a good size");
    state.serving[0] = 77;
    ticked(&image, &mut state, 5);
    assert_eq!(entry::rebind(&image, &mut state, 3, 2), Ok(0));
    assert_eq!(state.serving[..3], [77, 2, 2]);
}

//! The 130 bytes by which C keeps a state.

use std::mem::offset_of;

use comparison::samples::chart_p;
use proved::c;
use reference::entry::translated;
use reference::frames::{text_of, Frame};

/// The image of chart P.
fn image_p() -> Vec<u8> {
    translated(&text_of(&chart_p())).expect("a valid chart")
}

fn fresh(size: u64) -> c::State {
    let (mut index, mut count) = (9, 9);
    let mut state = c::State::NONE;
    // SAFETY: all that the call is handed lives here and is lent to it alone.
    assert_eq!(unsafe { c::fairleadow_fresh(size, &mut state, &mut index, &mut count) } as u8, 0);
    assert_eq!((index, count), (0, 0));
    state
}

/// The number, and the index and count written.
fn run(image: &[u8], state: &mut c::State, words: &[u16], room: usize) -> (u8, u64, u64) {
    let (mut masks, mut codes) = (vec![0u32; room], vec![0u8; room]);
    let (mut index, mut count) = (9, 9);
    // SAFETY: all that the call is handed lives here and is lent to it alone.
    let number = unsafe {
        c::fairleadow_run(
            image.as_ptr(),
            image.len() as u64,
            state,
            words.as_ptr(),
            words.len() as u64,
            masks.as_mut_ptr(),
            room as u64,
            codes.as_mut_ptr(),
            room as u64,
            &mut index,
            &mut count,
        )
    } as u8;
    (number, index, count)
}

#[test]
fn a_result_byte_is_true_unless_0_and_comes_back_as_0_or_1() {
    let image = image_p();
    let mut state = fresh(3);
    state.results = [0, 1, 2, 255, 0, 0, 0, 0, 0, 0, 0, 0, 0, 0, 0, 7];
    assert_eq!(run(&image, &mut state, &[0], 1), (0, 0, 1));
    assert_eq!(state.results, [0, 1, 1, 1, 0, 0, 0, 0, 0, 0, 0, 0, 0, 0, 0, 1]);
}

#[test]
fn refusals_up_to_16_leave_every_byte() {
    let image = image_p();
    let mut state = fresh(3);
    state.results[4] = 7;
    let kept = state;
    assert_eq!(run(&image, &mut state, &[0, 0], 1), (16, 0, 0));
    assert_eq!(state, kept);
    assert_eq!(run(&image[1..], &mut state, &[0], 1), (1, 0, 0));
    assert_eq!(state, kept);
    state.places[20] = 1;
    let unfit = state;
    assert_eq!(run(&image, &mut state, &[0], 1), (15, 0, 0));
    assert_eq!(state, unfit);
}

#[test]
fn a_refused_tick_leaves_the_state_the_mask_and_the_code() {
    let image = image_p();
    let mut state = fresh(1);
    assert_eq!(run(&image, &mut state, &[0], 1), (0, 0, 1));
    state.results[4] = 7;
    let kept = state;
    let (mut mask, mut code, mut index, mut count) = (123, 45, 9, 9);
    // SAFETY: all that the call is handed lives here and is lent to it alone.
    let number = unsafe {
        c::fairleadow_tick(
            image.as_ptr(),
            image.len() as u64,
            &mut state,
            0,
            &mut mask,
            &mut code,
            &mut index,
            &mut count,
        )
    } as u8;
    assert_eq!((number, index, count, mask, code), (17, 0, 0, 123, 45));
    assert_eq!(state, kept);
}

/// A function of scheme 1 calls scheme 2, which writes 1; on a 1 an operation follows.
const FUNCTION: [Frame; 7] = [
    [0, 1, 0, 1, 0, 0, 0, 0, 0, 0],
    [4, 1, 2, 2, 3, 0, 0, 0, 0, 0],
    [1, 1, 0, 0, 0, 0, 0, 0, 0, 0],
    [2, 1, 0, 2, 0, 0, 0, 0, 0, 1],
    [0, 2, 0, 5, 0, 0, 0, 0, 0, 0],
    [2, 2, 0, 6, 0, 2, 0, 0, 0, 0],
    [1, 2, 0, 0, 0, 0, 0, 0, 0, 0],
];

#[test]
fn a_cause_reads_every_byte_but_0_as_a_1() {
    let image = translated(&text_of(&FUNCTION)).expect("a valid chart");
    let mut state = fresh(2);
    state.depth = 2;
    state.places[..2].copy_from_slice(&[2, 1]);
    (state.numbers[1], state.servers[1]) = (2, 2);
    for (byte, wanted) in [(0, (0, 0, 0, 0)), (1, (0, 1, 0, 1)), (7, (0, 1, 0, 1)), (255, (0, 1, 0, 1))] {
        state.results[1] = byte;
        let (mut row, mut mask, mut bit, mut index, mut count) = (9, 9, 9, 9, 9);
        // SAFETY: all that the call is handed lives here and is lent to it alone.
        let number = unsafe {
            c::fairleadow_cause(
                image.as_ptr(),
                image.len() as u64,
                &state,
                0xFFFF,
                &mut row,
                &mut mask,
                &mut bit,
                &mut index,
                &mut count,
            )
        } as u8;
        assert_eq!(((number, row, mask, bit), index, count), (wanted, 0, 0), "{byte}");
    }
}

#[test]
fn a_bad_size_gives_a_state_of_zeros() {
    for size in [0, 33, 256, u64::MAX] {
        let (mut index, mut count) = (9, 9);
        let mut state = c::State::filled(3);
        // SAFETY: all that the call is handed lives here and is lent to it alone.
        assert_eq!(unsafe { c::fairleadow_fresh(size, &mut state, &mut index, &mut count) } as u8, 14);
        assert_eq!((index, count, state), (0, 0, c::State::NONE));
    }
}

#[test]
fn the_struct_has_130_bytes_in_the_order_of_the_header() {
    assert_eq!(size_of::<c::State>(), 130);
    let offsets = [
        offset_of!(c::State, size),
        offset_of!(c::State, depth),
        offset_of!(c::State, places),
        offset_of!(c::State, results),
        offset_of!(c::State, serving),
        offset_of!(c::State, numbers),
        offset_of!(c::State, servers),
    ];
    assert_eq!(offsets, [0, 1, 2, 34, 50, 66, 98]);
}

#[test]
fn a_fresh_state_is_written_whole() {
    for size in 1..=32 {
        let (mut index, mut count) = (9, 9);
        let mut state = c::State::filled(0xAB);
        // SAFETY: all that the call is handed lives here and is lent to it alone.
        assert_eq!(unsafe { c::fairleadow_fresh(size, &mut state, &mut index, &mut count) } as u8, 0);
        let mut wanted = c::State { size: size as u8, depth: 1, ..c::State::NONE };
        wanted.serving = std::array::from_fn(|k| k as u8 + 1);
        (wanted.numbers[0], wanted.servers[0]) = (1, 1);
        assert_eq!(state, wanted);
    }
}

/// A state of zeros, or one that an old caller grew by zeros, is refused.
#[test]
fn zeros_for_the_new_bytes_do_not_fit() {
    let image = image_p();
    let mut zeros = c::State::NONE;
    assert_eq!(run(&image, &mut zeros, &[0], 1), (15, 0, 0));
    let mut grown = c::State { size: 3, depth: 1, ..c::State::NONE };
    let kept = grown;
    assert_eq!(run(&image, &mut grown, &[0], 1), (15, 0, 0));
    assert_eq!(grown, kept);
}

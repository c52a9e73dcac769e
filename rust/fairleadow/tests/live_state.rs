//! The 130 bytes by which C keeps a state, through live runs and live ticks, and the buffer of a table.

use comparison::samples::{chart_p, largest_image};
use proved::c;
use proved::{IMAGE_TEXT, TABLE};
use reference::entry::translated;
use reference::frames::text_of;

/// The number, and the index and count written.
type Said = (u8, u64, u64);

fn prepare(image: &[u8], table: &mut [u8]) -> Said {
    let (mut index, mut count) = (9, 9);
    // SAFETY: all that the call is handed lives here and is lent to it alone.
    let number = unsafe {
        c::fairleadow_prepare(
            image.as_ptr(),
            image.len() as u64,
            table.as_mut_ptr(),
            table.len() as u64,
            &mut index,
            &mut count,
        )
    } as u8;
    (number, index, count)
}

/// The table of chart P.
fn table_p() -> Vec<u8> {
    let image = translated(&text_of(&chart_p())).expect("a valid chart");
    let mut table = vec![0; 120];
    assert_eq!(prepare(&image, &mut table), (0, 0, 120));
    table
}

fn fresh(size: u8) -> c::State {
    let state = reference::fresh_state(size.into()).expect("a good size");
    c::State::from(&state)
}

fn live_run(table: &[u8], state: &mut c::State, words: &[u16], room: usize) -> Said {
    let (mut masks, mut codes) = (vec![0u32; room], vec![0u8; room]);
    let (mut index, mut count) = (9, 9);
    // SAFETY: all that the call is handed lives here and is lent to it alone.
    let number = unsafe {
        c::fairleadow_live_run(
            table.as_ptr(),
            table.len() as u64,
            state,
            words.as_ptr(),
            words.len() as u64,
            masks.as_mut_ptr(),
            room as u64,
            codes.as_mut_ptr(),
            room as u64,
            &mut index,
            &mut count,
        )
    } as u8;
    (number, index, count)
}

/// What is said, and what *mask and *code, 123 and 45 before, hold then.
fn live_tick(table: &[u8], state: &mut c::State, word: u16) -> (Said, u32, u8) {
    let (mut mask, mut code, mut index, mut count) = (123, 45, 9, 9);
    // SAFETY: all that the call is handed lives here and is lent to it alone.
    let number = unsafe {
        c::fairleadow_live_tick(
            table.as_ptr(),
            table.len() as u64,
            state,
            word,
            &mut mask,
            &mut code,
            &mut index,
            &mut count,
        )
    } as u8;
    ((number, index, count), mask, code)
}

#[test]
fn a_result_byte_is_true_unless_0_and_comes_back_as_0_or_1() {
    let given = [0, 1, 2, 255, 0, 0, 0, 0, 0, 0, 0, 0, 0, 0, 0, 7];
    let kept = [0, 1, 1, 1, 0, 0, 0, 0, 0, 0, 0, 0, 0, 0, 0, 1];
    let table = table_p();
    let mut state = c::State { results: given, ..fresh(3) };
    assert_eq!(live_run(&table, &mut state, &[0], 1), (0, 0, 1));
    assert_eq!((state.places[0], state.results), (2, kept));
    let mut state = c::State { results: given, ..fresh(3) };
    assert_eq!(live_tick(&table, &mut state, 0), ((0, 0, 1), 0, 0x04));
    assert_eq!((state.places[0], state.results), (2, kept));
    // a run that ends with 17 is no refusal that leaves the bytes
    let mut state = c::State { results: given, ..fresh(1) };
    assert_eq!(live_run(&table, &mut state, &[0, 0], 2), (17, 0, 1));
    assert_eq!((state.places[0], state.results), (2, kept));
}

#[test]
fn refusals_up_to_16_leave_every_byte() {
    let table = table_p();
    let mut state = fresh(3);
    state.results[4] = 7;
    let kept = state;
    assert_eq!(live_run(&table, &mut state, &[0, 0], 1), (16, 0, 0));
    assert_eq!(live_run(&table[..119], &mut state, &[0], 1), (11, 0, 0));
    assert_eq!(live_run(&[], &mut state, &[0], 1), (11, 0, 0));
    assert_eq!(state, kept);
    state.places[20] = 1;
    let unfit = state;
    assert_eq!(live_run(&table, &mut state, &[0, 0], 1), (15, 0, 0));
    assert_eq!(state, unfit);
}

#[test]
fn a_refused_live_tick_leaves_the_state_the_mask_and_the_code() {
    let table = table_p();
    let mut state = fresh(1);
    (state.places[0], state.results[4]) = (2, 7);
    let kept = state;
    assert_eq!(live_tick(&table, &mut state, 0), ((17, 0, 0), 123, 45));
    assert_eq!(live_tick(&table[1..], &mut state, 0), ((11, 0, 0), 123, 45));
    // label 2 as a plain one whose rows end where they begin
    let mut without = table.clone();
    (without[50], without[51], without[52]) = (8, 0, 0);
    assert_eq!(live_tick(&without, &mut state, 0), ((18, 0, 0), 123, 45));
    assert_eq!(state, kept);
    state.numbers[1] = 2;
    let unfit = state;
    assert_eq!(live_tick(&table, &mut state, 0), ((15, 0, 0), 123, 45));
    assert_eq!(state, unfit);
}

#[test]
fn a_refused_preparation_leaves_the_buffer() {
    let image = translated(&text_of(&chart_p())).expect("a valid chart");
    let mut table = [0xAB; 119];
    assert_eq!(prepare(&image, &mut table), (16, 0, 0));
    assert_eq!(prepare(&image[1..], &mut table), (1, 0, 0));
    let mut damaged = image.clone();
    let last_digit = &mut damaged[23 * 3 + 21];
    *last_digit = if *last_digit == b'0' { b'1' } else { b'0' };
    assert_eq!(prepare(&damaged, &mut table), (3, 3, 0));
    assert_eq!(table, [0xAB; 119]);
}

#[test]
fn the_largest_table_has_the_size_of_the_header() {
    let image = text_of(&largest_image());
    assert_eq!(image.len(), IMAGE_TEXT);
    let mut table = vec![0xAB; TABLE + 5];
    assert_eq!(prepare(&image, &mut table[..TABLE]), (0, 0, TABLE as u64));
    assert_eq!(table[TABLE..], [0xAB; 5]);
}

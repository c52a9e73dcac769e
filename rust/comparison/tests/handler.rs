//! The scheme for a full stack, by hand: what a drop leaves, when 17 stays, the handler's return, which states fit, and which
//! marks are refused.

use comparison::samples::with_handler;
use reference::frames::{text_of, Frame};
use reference::{entry, fresh_state, Answer, Refusal, State};

/// The chart of the samples whose handler is scheme 3, with other calls in scheme 2 and in the handler.
fn records(called: u8, handles: u8) -> Vec<Frame> {
    let mut records = with_handler();
    (records[4][2], records[7][2]) = (called, handles);
    records
}

/// Labels 2, 3 and 4 are the operations of schemes 1, 2 and 3.
fn image(called: u8, handles: u8) -> Vec<u8> {
    entry::translated(&text_of(&records(called, handles))).unwrap()
}

/// A state with these places taken, each number served by its own scheme, and only the bits of these numbers at 1.
fn state(image: &[u8], size: u8, places: &[u8], ones: &[usize]) -> State {
    let mut state = entry::image_from_text(image).expect("an image").shape().state(size, places);
    ones.iter().for_each(|scheme| state.results[scheme - 1] = true);
    state
}

/// What a full stack answers after so many ticks.
fn full(ticks: usize) -> Answer {
    Err(Refusal::Full { ticks })
}

/// The answer of a run, its codes and masks, and the state after it.
fn ran(image: &[u8], state: &State, words: &[u16]) -> (Answer, Vec<u8>, Vec<u32>, State) {
    let (mut after, mut masks, mut codes) = (*state, vec![0; words.len()], vec![0; words.len()]);
    let answer = entry::run(image, &mut after, words, &mut masks, &mut codes);
    (answer, codes, masks, after)
}

/// A drop writes what the caller writes, clears the handler's bit, leaves that of the scheme called, and nothing is left above.
#[test]
fn a_drop_leaves_the_handler_alone() {
    let image = image(2, 0);
    let full = state(&image, 2, &[2, 3], &[3, 4]);
    let wanted = (Ok(1), vec![0x60], vec![2], state(&image, 2, &[4], &[2, 4]));
    assert_eq!(ran(&image, &full, &[0]), wanted);
}

/// A handler's scheme that was called is dropped with the rest; the 1 that it writes then is cleared.
#[test]
fn a_called_handler_is_dropped_too() {
    for image in [image(3, 2), image(3, 3)] {
        let full = state(&image, 3, &[2, 3, 4], &[]);
        let wanted = (Ok(1), vec![0x60], vec![4], state(&image, 3, &[4], &[]));
        assert_eq!(ran(&image, &full, &[0]), wanted);
    }
}

/// With one place to spare a call is a call.
#[test]
fn a_call_with_a_place_left_drops_nothing() {
    let image = image(2, 0);
    let wanted = (Ok(1), vec![0x12], vec![2], state(&image, 3, &[2, 3, 3], &[]));
    assert_eq!(ran(&image, &state(&image, 3, &[2, 3], &[]), &[0]), wanted);
}

#[test]
fn with_the_handler_at_the_bottom_a_full_stack_is_17() {
    let image = image(2, 2);
    let alone = state(&image, 1, &[4], &[3]);
    assert_eq!(ran(&image, &alone, &[0]), (full(0), vec![0], vec![0], alone));
    let deep = state(&image, 2, &[4, 3], &[3]);
    assert_eq!(ran(&image, &deep, &[0]), (full(0), vec![0], vec![0], deep));
    // one place: the first call drops, and the handler's own call finds the stack full
    let (answer, codes, ..) = ran(&image, &fresh_state(1).unwrap(), &[0; 4]);
    assert_eq!((answer, &codes[..2]), (full(2), &[0x04, 0x60][..]));
}

/// Mask 0 and code 03, any word, and the bits stay.
#[test]
fn the_handler_returns_to_label_0() {
    let image = image(2, 0);
    for word in [0, 1, 0xFFFF] {
        let wanted = (Ok(1), vec![0x03], vec![0], state(&image, 1, &[0], &[2, 3]));
        assert_eq!(ran(&image, &state(&image, 1, &[1], &[2, 3]), &[word]), wanted);
    }
}

#[test]
fn the_handler_may_stand_at_the_bottom_and_no_other() {
    let fits = |image: &[u8], places: &[u8]| ran(image, &state(image, 3, places, &[]), &[]).0 == Ok(0);
    let handled = image(2, 2);
    for places in [&[1][..], &[4], &[4, 3], &[4, 1]] {
        assert!(fits(&handled, places), "{places:?}");
    }
    for places in [&[3][..], &[3, 3], &[1, 1], &[0, 1]] {
        assert!(!fits(&handled, places), "{places:?}");
    }
    let mut unmarked = records(2, 2);
    unmarked[6][2] = 0;
    let plain = entry::translated(&text_of(&unmarked)).unwrap();
    for places in [&[1][..], &[4], &[4, 3]] {
        assert!(!fits(&plain, places), "{places:?}");
    }
}

/// The refusal of a chart whose Begins of schemes 1, 2 and 3 have these bytes 2, after a change to its records.
fn refusal(marks: [u8; 3], change: fn(&mut Vec<Frame>)) -> Option<Refusal> {
    let mut records = records(2, 0);
    for (begin, mark) in [0, 3, 6].into_iter().zip(marks) {
        records[begin][2] = mark;
    }
    change(&mut records);
    entry::chart_from_text(&text_of(&records)).err()
}

#[test]
fn marks_are_refused_after_5_and_before_6() {
    assert_eq!(refusal([0, 0, 0], |_| {}), None);
    assert_eq!(refusal([0, 1, 0], |_| {}), None);
    assert_eq!(refusal([1, 0, 0], |_| {}), Some(Refusal::BadMarks));
    assert_eq!(refusal([0, 1, 1], |_| {}), Some(Refusal::BadMarks));
    assert_eq!(refusal([1, 1, 2], |_| {}), Some(Refusal::BadField(6)));
    assert_eq!(refusal([0, 255, 1], |_| {}), Some(Refusal::BadField(3)));
    let two_ends = |records: &mut Vec<Frame>| records[7] = records[8];
    assert_eq!(refusal([1, 0, 0], two_ends), Some(Refusal::BadScheme));
    let bad_arc = |records: &mut Vec<Frame>| records[1][3] = 5;
    assert_eq!(refusal([1, 0, 0], bad_arc), Some(Refusal::BadMarks));
    assert_eq!(refusal([0, 0, 1], bad_arc), Some(Refusal::BadArc(1)));
}

#[test]
fn the_header_may_name_a_scheme_that_can_be_called() {
    let mut frames = entry::image_from_text(&image(2, 0)).unwrap().frames();
    for handler in 0..=255 {
        frames[0][5] = handler;
        let stands = matches!(handler, 0 | 2 | 3);
        let wanted = if stands { Ok(0) } else { Err(Refusal::BadHeader) };
        assert_eq!(entry::check_image(&text_of(&frames)), wanted, "byte 5 is {handler}");
    }
    frames[0][5] = 3;
    for byte in 6..10 {
        frames[0][byte] = 1;
        assert_eq!(entry::check_image(&text_of(&frames)), Err(Refusal::BadHeader), "byte {byte}");
        frames[0][byte] = 0;
    }
}

//! The scheme for a full stack, by the proved library: what a drop leaves in the state of C, and what marks that are refused
//! leave in the buffers.

use comparison::samples::with_handler;
use proved::{Answer, Library, Proved, Refusal, State, Tick, IMAGE_TEXT, TABLE};
use reference::entry::image_from_text;
use reference::frames::{text_of, Frame};

fn image() -> Vec<u8> {
    let mut image = vec![0; IMAGE_TEXT];
    let length = Proved.translate(&text_of(&with_handler()), &mut image).expect("a valid chart");
    image.truncate(length);
    image
}

fn table() -> Vec<u8> {
    let mut table = vec![0; TABLE];
    let length = Proved.prepare(&image(), &mut table).expect("an accepted image");
    table.truncate(length);
    table
}

/// Two places, with labels 2 and 3 (of schemes 1 and 2) in them and the bits of schemes 3 and 4 at 1.
fn full() -> State {
    let image = image_from_text(&image()).expect("an image");
    let mut state = image.shape().state(2, &[2, 3]);
    (state.results[2], state.results[3]) = (true, true);
    state
}

#[test]
fn image_and_table_name_the_handler() {
    assert!(image().starts_with(b"0F030400030300000000E4\n"));
    assert!(table().starts_with(&[0x0F, 3, 4, 0, 3, 3, 0, 0, 0, 0]));
}

/// Each tick of the drop, of the handler, of its return, and the home tick, with the state after it.
#[test]
fn a_full_stack_is_dropped_and_handled() {
    let (image, table) = (image(), table());
    let bit = |state: &State, scheme: usize| state.results[scheme - 1];
    let mut state = full();
    let mut live = state;
    for (code, mask, bottom, bits) in [
        (0x60, 2, 4, [false, true, false, true]),
        (0x00, 4, 1, [false, true, true, true]),
        (0x03, 0, 0, [false, true, true, true]),
        (0x04, 0, 2, [false, true, true, true]),
    ] {
        let ticked = Proved.tick(&image, &mut state, 0xFFFF);
        assert_eq!(ticked, Ok(Tick { mask, code }));
        assert_eq!((state.size, state.depth, state.places[0]), (2, 1, bottom));
        for above in [&state.places[1..], &state.numbers[1..], &state.servers[1..]] {
            assert!(above.iter().all(|byte| *byte == 0));
        }
        let open = if matches!(code, 0x60 | 0x00) { 3 } else { 1 };
        assert_eq!((state.numbers[0], state.servers[0]), (open, open));
        assert_eq!([1, 2, 3, 4].map(|scheme| bit(&state, scheme)), bits);
        assert_eq!(Proved.live_tick(&table, &mut live, 0xFFFF), ticked);
        assert_eq!(live, state);
    }
}

/// The refusals of a chart with these bytes 2 in its Begins: read, written and translated, each into a buffer that stays.
fn refusals(marks: [u8; 3]) -> [Answer; 3] {
    let mut records: Vec<Frame> = with_handler();
    for (begin, mark) in [0, 3, 6].into_iter().zip(marks) {
        records[begin][2] = mark;
    }
    let text = text_of(&records);
    let mut out = vec![0xAB; IMAGE_TEXT];
    let answers = [
        Proved.read_chart(&text, &mut out),
        Proved.write_chart(&records.concat(), &mut out),
        Proved.translate(&text, &mut out),
    ];
    assert!(out.iter().all(|byte| *byte == 0xAB));
    answers
}

#[test]
fn a_mark_on_scheme_1_and_a_second_mark_are_refused() {
    assert_eq!(refusals([1, 0, 0]), [Err(Refusal::BadMarks); 3]);
    assert_eq!(refusals([0, 1, 1]), [Err(Refusal::BadMarks); 3]);
    assert_eq!(refusals([1, 0, 2]), [Err(Refusal::BadField(6)); 3]);
}

//! The cause of a tick: that its mask decides the row, and cases written out.

use std::collections::BTreeMap;

use comparison::generate::{images, runs, states, Random};
use comparison::samples;
use reference::cause::cause_of;
use reference::entry;
use reference::frames::{text_of, Frame};
use reference::image::{image_of, Image, Label, Row, FUNCTION_CALL, OPERATION_CALL, PLAIN};
use reference::machine;
use reference::{Cause, Refusal, State};

/// All words that agree with one on a mask.
fn agreeing(word: u16, mask: u16) -> impl Iterator<Item = u16> {
    (0..=u16::MAX).filter(move |other| (other ^ word) & mask == 0)
}

/// Looks at the causes of ticks of random images from fitting states.
fn each_cause(seeds: u64, mut look: impl FnMut(&Image, &State, u16, Cause)) {
    for seed in 0..seeds {
        let random = &mut Random::new(seed);
        let image = if random.once_in(2) { images::small(random) } else { images::accepted(random) };
        let state = states::fitting(random, image.shape());
        if image_of(&image.frames()).is_err() {
            continue;
        }
        for word in runs::words(random, 2) {
            if let Ok(found) = cause_of(&image, &state, word) {
                look(&image, &state, word, found);
            }
        }
    }
}

#[test]
fn every_word_that_agrees_on_the_mask_takes_the_same_row() {
    let mut causes = 0;
    each_cause(400, |image, state, word, found| {
        causes += 1;
        for other in agreeing(word, found.mask) {
            let row = cause_of(image, state, other).map(|cause| cause.row);
            assert_eq!(row, Ok(found.row), "{state:?} {word:04X} {other:04X}");
        }
    });
    assert!(causes > 150, "{causes}");
}

/// The row is the one by which the tick goes on.
#[test]
fn the_tick_goes_by_the_row_told() {
    each_cause(20_000, |image, state, word, found| {
        let after = machine::tick(image, state, word).map(|advanced| advanced.state).ok();
        let only = Image { rows: vec![image.rows[usize::from(found.row)]], ..image.clone() };
        assert_eq!(machine::tick(&only, state, word).map(|advanced| advanced.state).ok(), after);
        assert!(after.is_some(), "{state:?} {word:04X}");
    });
}

/// What a cause has to do with the rows of its label, and whether this one has it.
fn sorts(image: &Image, state: &State, word: u16, found: Cause) -> [(&'static str, bool); 11] {
    let taken = image.rows[usize::from(found.row)];
    let label = image.labels[usize::from(taken.from)];
    let others: Vec<&Row> = image.rows.iter().filter(|row| row.from == taken.from).collect();
    let against = |row: &Row| (word & row.care) ^ row.values;
    let shut_out = |row: &Row| row.function_bit < 2 && row.function_bit != found.bit;
    let any = |test: &dyn Fn(&Row) -> bool| others.iter().any(|row| test(row));
    let loses = |row: &Row| against(row) == 0 && !shut_out(row) && *row != taken;
    [
        ("a plain tick", label.called == 0),
        ("a return to an operation", label.kind == OPERATION_CALL),
        ("a return to a function with bit 0", label.kind == FUNCTION_CALL && found.bit == 0),
        ("a return to a function with bit 1", label.kind == FUNCTION_CALL && found.bit == 1),
        ("a row of a function's without a bit", label.kind == FUNCTION_CALL && taken.function_bit == 2),
        ("a condition beyond the care mask", found.mask != taken.care),
        ("two contradictions of one row", any(&|row| against(row).count_ones() > 1 && !shut_out(row))),
        (
            "a row shut out that the word contradicts",
            any(&|row| shut_out(row) && against(row) & !found.mask != 0),
        ),
        ("a row that loses and tests more", any(&|row| loses(row) && row.care & !found.mask != 0)),
        ("a row of a label that is not the first", image.rows[0].from != taken.from),
        ("a state that is deep", state.depth > 4),
    ]
}

#[test]
fn causes_are_of_every_sort() {
    let mut found = BTreeMap::new();
    each_cause(20_000, |image, state, word, cause| {
        for (sort, met) in sorts(image, state, word, cause) {
            *found.entry(sort).or_insert(0) += usize::from(met);
        }
    });
    println!("{found:?}");
    let rare: Vec<_> = found.iter().filter(|(_, count)| **count < 40).collect();
    assert!(rare.is_empty(), "too few causes have {rare:?}");
}

/// A state of three places.
fn state(image: &Image, places: &[u8]) -> State {
    image.shape().state(3, places)
}

fn told(row: u16, mask: u16, bit: u8) -> Result<Cause, Refusal> {
    Ok(Cause { row, mask, bit })
}

fn text(image: &Image) -> Vec<u8> {
    text_of(&image.frames())
}

fn image_of_chart(records: &[Frame]) -> Image {
    let text = entry::translated(&text_of(records)).expect("a valid chart");
    entry::image_from_text(&text).expect("its image")
}

#[test]
fn causes_on_chart_p() {
    let image = image_of_chart(&samples::chart_p());
    let cause = |places: &[u8], word| entry::cause(&text(&image), &state(&image, places), word);
    assert_eq!(cause(&[2, 3], 0), told(1, 1, 2));
    assert_eq!(cause(&[2, 3], 0xFFFF), told(2, 1, 2));
    // a return: the row of the label beneath
    assert_eq!(cause(&[2, 1], 7), told(0, 0, 2));
    assert_eq!(cause(&[2, 4, 1], 7), told(3, 0, 2));
    // home, a call with a place left, and a call at a full stack
    for places in [&[0][..], &[2], &[2, 4, 4]] {
        assert_eq!(cause(places, 0), Err(Refusal::Rowless));
    }
    assert_eq!(cause(&[3], 0), Err(Refusal::Unfit));
    assert_eq!(entry::cause(b"", &state(&image, &[0]), 0), Err(Refusal::BadLength));
}

#[test]
fn a_handlers_return_at_depth_1_takes_no_row() {
    let image = image_of_chart(&samples::with_handler());
    assert_eq!(entry::cause(&text(&image), &state(&image, &[1]), 0), Err(Refusal::Rowless));
}

#[test]
fn a_word_without_a_row_is_refused_after_a_tick_without_one() {
    let mut image = image_of_chart(&samples::chart_p());
    image.rows.clear();
    assert_eq!(entry::cause(&text(&image), &state(&image, &[2, 3]), 0), Err(Refusal::NoRow { ticks: 0 }));
    assert_eq!(entry::cause(&text(&image), &state(&image, &[2]), 0), Err(Refusal::Rowless));
}

/// Label 2 is a function call's of scheme 1 to scheme 2, label 3 is plain and of scheme 1.
fn with_rows(rows: &[(u16, u16, u8)]) -> Image {
    let function = Label { kind: FUNCTION_CALL, called: 2, owner: 1, result: 0, mask: 0 };
    let plain = Label { kind: PLAIN, called: 0, ..function };
    let row = |(care, values, function_bit): &(u16, u16, u8)| Row {
        from: 2,
        care: *care,
        values: *values,
        function_bit: *function_bit,
        next: 3,
    };
    Image {
        handler: 0,
        entries: vec![2, 1],
        labels: vec![Label::ZERO, Label::ONE, function, plain],
        rows: rows.iter().map(row).collect(),
    }
}

#[test]
fn conditions_come_from_the_rows_that_do_not_match() {
    let rows = [
        (0x000F, 0x0000, 2), // taken by word 0
        (0x00F0, 0x00C0, 2), // against it in 6 and 7: the lowest counts
        (0x0003, 0x0000, 2), // matches and loses
        (0x0F00, 0x0100, 1), // shut out by the bit, though the word is against it too
        (0xF000, 0x8000, 0), // against it in 15
    ];
    let image = with_rows(&rows);
    let mut returning = state(&image, &[2, 1]);
    let image = text(&image);
    assert_eq!(entry::cause(&image, &returning, 0), told(0, 0x804F, 0));
    returning.results[1] = true;
    assert_eq!(entry::cause(&image, &returning, 0), told(0, 0x014F, 1));
}

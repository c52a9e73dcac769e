//! How many places a chart's calls need, by the proved library, on charts by hand.

use comparison::samples::{most_schemes, with_handler};
use proved::{Answer, Library, Proved, Refusal};
use reference::frames::{text_of, Frame};

/// A scheme of one operation that calls this scheme, or none if it is 0; its first node has this number.
fn scheme(number: u8, first: u8, called: u8) -> [Frame; 3] {
    [
        [0, number, 0, first + 1, 0, 0, 0, 0, 0, 0],
        [2, number, called, first + 2, 0, 0, 0, 0, 0, 0],
        [1, number, 0, 0, 0, 0, 0, 0, 0, 0],
    ]
}

/// Schemes 1 up, each with the call that is told.
fn chart(calls: &[u8]) -> Vec<Frame> {
    (0u8..).zip(calls).flat_map(|(at, called)| scheme(at + 1, 3 * at, *called)).collect()
}

fn places(records: &[Frame]) -> Answer {
    Proved.places(&text_of(records))
}

#[test]
fn the_longest_chain_counts_scheme_1() {
    assert_eq!(places(&chart(&[0])), Ok(1));
    assert_eq!(places(&chart(&[2, 3, 0])), Ok(3));
    assert_eq!(places(&chart(&[3, 0, 2])), Ok(3));
    assert_eq!(places(&chart(&[0, 3, 0])), Ok(1));
    assert_eq!(places(&most_schemes()), Ok(16));
}

#[test]
fn a_function_calls_too() {
    let mut records = chart(&[2, 3, 0]);
    records[4] = [4, 2, 3, 5, 5, 0, 0, 0, 0, 0];
    assert_eq!(places(&records), Ok(3));
    records[4][2] = 2;
    assert_eq!(places(&records), Err(Refusal::CallsItself));
}

/// Condition 0 is tested twice in a row, so that no words lead to the operation of scheme 1 that calls.
#[test]
fn a_call_that_no_words_lead_to_counts() {
    let records = [
        vec![
            [0, 1, 0, 1, 0, 0, 0, 0, 0, 0],
            [2, 1, 0, 2, 0, 0, 0, 0, 0, 1],
            [3, 1, 0, 5, 3, 0, 0, 0, 0, 0],
            [3, 1, 0, 4, 5, 0, 0, 0, 0, 0],
            [2, 1, 2, 5, 0, 0, 0, 0, 0, 0],
            [1, 1, 0, 0, 0, 0, 0, 0, 0, 0],
        ],
        scheme(2, 6, 0).to_vec(),
    ]
    .concat();
    assert_eq!(places(&records), Ok(2));
}

#[test]
fn a_circle_within_reach_is_refused() {
    assert_eq!(places(&chart(&[2, 2])), Err(Refusal::CallsItself));
    assert_eq!(places(&chart(&[2, 3, 2])), Err(Refusal::CallsItself));
    assert_eq!(places(&with_handler()), Err(Refusal::CallsItself));
}

#[test]
fn a_circle_out_of_reach_does_not_matter() {
    assert_eq!(places(&chart(&[0, 2])), Ok(1));
    assert_eq!(places(&chart(&[4, 3, 2, 0])), Ok(2));
}

/// A drop starts the handler and is no call.
#[test]
fn the_handler_counts_where_it_is_called() {
    let mut records = chart(&[2, 0, 2]);
    records[6][2] = 1;
    assert_eq!(places(&records), Ok(2));
    records[1][2] = 3;
    assert_eq!(places(&records), Ok(3));
}

#[test]
fn refusals_of_the_chart_come_first() {
    let mut records = chart(&[2, 2]);
    records[0][2] = 1;
    assert_eq!(places(&records), Err(Refusal::BadMarks));
    records[0][2] = 2;
    assert_eq!(places(&records), Err(Refusal::BadField(0)));
    assert_eq!(Proved.places(b""), Err(Refusal::BadLength));
}

/// Eleven different conditions before the End of scheme 2, which calls itself: 2,048 rows and a circle.
#[test]
fn too_many_rows_come_before_a_circle() {
    let mut records = chart(&[2, 2]);
    let end = records.pop().expect("an End");
    for number in 0..11 {
        let next = records.len() as u8 + 1;
        records.push([3, 2, number, next, next, 0, 0, 0, 0, 0]);
    }
    records.push(end);
    assert_eq!(places(&records), Err(Refusal::ManyRows));
    records[4][2] = 0;
    assert_eq!(places(&records), Err(Refusal::ManyRows));
}

//! The little charts: how many there are, that each is of the form and none is missing, their order, what is refused, and their ticks.

use std::fs;
use std::path::Path;

use comparison::compare::{run_little_charts, Tried};
use fast::Fast;
use reference::chart::{Chart, Kind, Node};
use reference::check::chart_of;
use reference::entry::{chart_from_text, little_chart, write_chart};
use reference::frames::{frames_of, text_of, Frame, CHART_TEXT};
use reference::little::texts;
use reference::{Library, Reference, Refusal};

/// Whether an accepted chart is a little one.
fn is_little(chart: &Chart) -> bool {
    let of_form = |node: &Node| match node.kind {
        Kind::Begin => !node.marks(),
        Kind::End => true,
        Kind::Operation => node.mask <= 1 && node.result == 0,
        Kind::Condition => node.argument == 0,
        Kind::Function => false,
    };
    (2..=4).contains(&chart.nodes.len()) && chart.schemes() == 1 && chart.nodes.iter().all(of_form)
}

fn frames(text: &[u8]) -> Vec<Frame> {
    frames_of(text, CHART_TEXT).expect("a chart's text")
}

#[test]
fn there_are_2_and_18_and_648() {
    assert_eq!([0, 1, 2, 3, 4, 5, usize::MAX].map(|count| texts(count).len()), [0, 0, 2, 18, 648, 0, 0]);
}

#[test]
fn each_is_accepted_and_of_the_form_and_as_the_writer_writes_it() {
    for count in 2..=4 {
        for text in texts(count) {
            assert_eq!(text.len(), 23 * count);
            assert!(is_little(&chart_from_text(text).expect("an accepted chart")));
            let mut out = vec![0; text.len()];
            assert_eq!(write_chart(&frames(text).concat(), &mut out), Ok(text.len()));
            assert_eq!(out, *text);
        }
    }
}

#[test]
fn each_text_is_before_the_next() {
    for count in 2..=4 {
        assert!(texts(count).windows(2).all(|pair| pair[0] < pair[1]), "{count} frames");
    }
}

/// An accepted chart is listed just where it is of the form.
fn hold_to_the_list(records: &[Frame], accepted: &mut usize) {
    let Ok(chart) = chart_of(records) else { return };
    *accepted += 1;
    let listed = texts(records.len()).binary_search(&text_of(records)).is_ok();
    assert_eq!(listed, is_little(&chart), "{records:?}");
}

/// Two frames, each with any kind and with fields in the form's values and beside them.
#[test]
fn none_of_two_frames_is_missing() {
    let mut nodes = Vec::new();
    for kind in 0..=4 {
        for (scheme, argument) in (0..=2).flat_map(|scheme| (0..=2).map(move |argument| (scheme, argument))) {
            for (on0, on1) in (0..=2).flat_map(|on0| (0..=2).map(move |on1| (on0, on1))) {
                let fields = (0..=1).flat_map(|result| (0..=2).map(move |mask| (result, mask)));
                nodes.extend(
                    fields.map(|(result, mask)| [kind, scheme, argument, on0, on1, result, 0, 0, 0, mask]),
                );
            }
        }
    }
    let mut accepted = 0;
    for first in &nodes {
        for second in &nodes {
            hold_to_the_list(&[*first, *second], &mut accepted);
        }
    }
    assert_eq!((nodes.len(), accepted), (2_430, 2));
}

/// Each little chart with each byte at each value: where another chart of the form comes of it, that is listed too.
#[test]
fn none_is_missing_one_byte_away() {
    let mut accepted = 0;
    for text in (2..=4).flat_map(texts) {
        let records = frames(text);
        for (at, byte) in (0..records.len()).flat_map(|at| (0..10).map(move |byte| (at, byte))) {
            for value in 0..=255 {
                let mut changed = records.clone();
                changed[at][byte] = value;
                hold_to_the_list(&changed, &mut accepted);
            }
        }
    }
    assert!(accepted > 400_000, "{accepted}");
}

#[test]
fn the_first_is_the_example_home() {
    let path = Path::new(env!("CARGO_MANIFEST_DIR")).join("../../examples/home.chart");
    assert_eq!(texts(2)[0], fs::read(path).expect("an example"));
}

#[test]
fn other_counts_and_numbers_past_the_last_are_refused_before_a_short_buffer() {
    for (frames, number) in
        [(0, 0), (1, 0), (5, 0), (usize::MAX, 0), (2, 2), (3, 18), (4, 648), (2, usize::MAX)]
    {
        for room in [0, 45, 200] {
            let mut out = vec![9; room];
            assert_eq!(
                little_chart(frames, number, &mut out),
                Err(Refusal::NoLittleChart),
                "{frames} {number}"
            );
            assert!(out.iter().all(|byte| *byte == 9));
        }
    }
    for (frames, number) in [(2, 1), (3, 17), (4, 647)] {
        let mut short = vec![9; 23 * frames - 1];
        assert_eq!(little_chart(frames, number, &mut short), Err(Refusal::NoRoom));
        assert!(short.iter().all(|byte| *byte == 9));
        let mut out = vec![9; 23 * frames + 7];
        assert_eq!(little_chart(frames, number, &mut out), Ok(23 * frames));
        assert_eq!(out, [&texts(frames)[number][..], &[9; 7]].concat());
    }
}

/// All of them, by the machine of the reference and by the plain Rust.
#[test]
fn every_little_chart_makes_the_ticks_of_its_walk() {
    for library in [&Reference as &dyn Library, &Fast] {
        let lists = [(2 * 3) << 4, (18 * 3) << 5, (648 * 3) << 6];
        assert_eq!(run_little_charts(library), Ok(Tried { charts: [2, 18, 648], lists }));
    }
}

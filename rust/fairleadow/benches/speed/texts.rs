//! Calls on texts: charts read, written and translated, images checked and run, a spindle ticked, numbers rebound, alike
//! labels joined.

use comparison::entry_point::{EntryPoint, Input};
use comparison::samples;
use comparison::samples::worst::{candidates, Origin};
use fast::Fast;
use proved::Proved;
use reference::entry::translated;
use reference::frames::{frames_of, text_of, Frame, IMAGE_TEXT};
use reference::fresh_state;

use crate::measure::calls::call_of;
use crate::measure::Line;

/// The charts whose images are made, by name.
pub fn charts() -> Vec<(&'static str, Vec<Frame>)> {
    vec![
        ("chart P", samples::chart_p()),
        ("200 labels", samples::operations(198)),
        ("256 labels", samples::operations(254)),
        ("16 schemes, 256 nodes", samples::most_schemes()),
        ("229 labels, 1,024 rows", samples::most_rows()),
        ("one label, 1,024 rows (B9)", samples::one_label()),
    ]
}

/// A line of the table: a call on an input.
fn line(name: &str, called: &str, call: EntryPoint, input: &Input) -> Line {
    let sides = vec![call_of(call, &Proved, input), call_of(call, &Fast, input)];
    Line { name: format!("{name} | {called}"), sides }
}

/// A chart that is read, written and translated, and all calls on the image that is made of it, from a fresh state.
fn lines_of_chart(name: &str, records: &[Frame]) -> Vec<Line> {
    let chart = Input::of(records.to_vec());
    let text = translated(&text_of(records)).expect("a valid chart");
    let state = fresh_state(32).expect("a good size");
    let frames = frames_of(&text, IMAGE_TEXT).expect("an accepted image");
    let image = Input { state, words: samples::words(65_536), ..Input::of(frames) };
    let few = Input { words: image.words[..64].to_vec(), ..image.clone() };
    let mut lines = vec![
        line(name, "read", EntryPoint::ReadChart, &chart),
        line(name, "write", EntryPoint::WriteChart, &chart),
        line(name, "translate", EntryPoint::Translate, &chart),
        line(name, "check", EntryPoint::CheckImage, &image),
        line(name, "run of 64", EntryPoint::Run, &few),
        line(name, "run of 65,536", EntryPoint::Run, &image),
        line(name, "minimise", EntryPoint::Minimise, &image),
        line(name, "spin", EntryPoint::Spin, &image),
    ];
    // with one scheme there is no number to rebind
    if !text.starts_with(b"0F01") {
        lines.push(line(name, "rebind", EntryPoint::Rebind, &image));
    }
    lines
}

pub fn lines() -> Vec<Line> {
    charts().iter().flat_map(|(name, records)| lines_of_chart(name, records)).collect()
}

/// Slow charts to read, and the charts and images constructed and found for reading, for translating and for joining labels; some are
/// refused.
pub fn slow_lines() -> Vec<Line> {
    let slow = samples::slow_charts().into_iter();
    let mut lines: Vec<Line> =
        slow.map(|slow| line(slow.name, "read", EntryPoint::ReadChart, &Input::of(slow.records))).collect();
    for (call, called) in [
        (EntryPoint::ReadChart, "read"),
        (EntryPoint::Translate, "translate"),
        (EntryPoint::Minimise, "minimise"),
    ] {
        let worst = candidates(call).into_iter();
        let worst = worst.filter(|one| matches!(one.origin, Origin::Construction | Origin::Search));
        lines.extend(worst.map(|one| line(&one.name, called, call, &one.input)));
    }
    lines
}

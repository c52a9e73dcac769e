//! Inputs for a search: one drawn to begin with, and small changes where they may matter, of one frame or of many in a row.
//! The seeds of samples/found.rs stand for other changes when this file is changed: search again then.

use super::{charts, images, runs, states, tables, Random};
use crate::entry_point::{EntryPoint, Input};
use crate::samples::worst::WORDS;
use reference::frames::Frame;
use reference::image::Label;
use reference::state::Shape;

/// The most nodes of a chart, and the most rows of an image.
const NODES: usize = 256;
const ROWS: usize = 1024;

/// Any input for an entry point.
pub fn drawn(random: &mut Random, entry: EntryPoint) -> Input {
    let words = runs::words(random, WORDS);
    match entry {
        EntryPoint::ReadChart | EntryPoint::WriteChart | EntryPoint::Translate | EntryPoint::Places => {
            Input::of(charts::chart(random))
        }
        EntryPoint::DryRun => {
            Input { value: random.within(1, 32), words, ..Input::of(charts::chart(random)) }
        }
        EntryPoint::CheckTable
        | EntryPoint::Sum
        | EntryPoint::LiveTick
        | EntryPoint::LiveRun
        | EntryPoint::LiveRebind
        | EntryPoint::LiveSpin => {
            let (bytes, state) = tables::table_and_state(random);
            Input { state, words, ..Input::of(bytes.as_chunks::<10>().0.to_vec()) }
        }
        _ => {
            let image = images::accepted(random);
            let state = states::fitting(random, image.shape());
            Input { state, words, ..Input::of(image.frames()) }
        }
    }
}

/// Changes an input by one to three small changes.
pub fn vary(random: &mut Random, entry: EntryPoint, input: &mut Input) {
    for _ in 0..random.pick(&[1, 1, 1, 2, 3]) {
        change(random, entry, input);
    }
}

fn change(random: &mut Random, entry: EntryPoint, input: &mut Input) {
    match entry {
        EntryPoint::ReadChart | EntryPoint::WriteChart | EntryPoint::Translate | EntryPoint::Places => {
            chart(random, &mut input.frames);
        }
        EntryPoint::DryRun => match random.below(6) {
            0 => input.value = random.within(1, 32),
            1 => word(random, &mut input.words),
            _ => chart(random, &mut input.frames),
        },
        EntryPoint::CheckImage
        | EntryPoint::Prepare
        | EntryPoint::ListRows
        | EntryPoint::Minimise
        | EntryPoint::CheckTable
        | EntryPoint::Sum => image(random, &mut input.frames),
        EntryPoint::Tick
        | EntryPoint::Run
        | EntryPoint::PricedRun
        | EntryPoint::Cause
        | EntryPoint::Rebind
        | EntryPoint::Spin
        | EntryPoint::LiveTick
        | EntryPoint::LiveRun
        | EntryPoint::LiveRebind
        | EntryPoint::LiveSpin => {
            match random.below(6) {
                0 => state(random, input),
                1 => word(random, &mut input.words),
                _ => image(random, &mut input.frames),
            }
            remember(input);
        }
        EntryPoint::CountFillings => {
            match random.below(6) {
                0 => input.value = random.within(1, 32),
                1 => input.lists = random.pick(&[(4, 2), (8, 1), (2, 4), (1, 8), (2_000, 0)]),
                _ => image(random, &mut input.frames),
            };
        }
        EntryPoint::LittleChart => input.chart = random.below(648),
        EntryPoint::Fresh | EntryPoint::Meaning => input.value = random.below(256),
    }
}

/// From where to where: one place, some in a row, or all from one on.
fn span(random: &mut Random, low: usize, high: usize) -> std::ops::Range<usize> {
    let first = random.within(low, high);
    match random.below(4) {
        0 => first..high + 1,
        1 => first..(first + random.within(1, 16)).min(high + 1),
        _ => first..first + 1,
    }
}

fn chart(random: &mut Random, records: &mut Vec<Frame>) {
    let last = records.len() - 1;
    let nodes = span(random, 0, last);
    match random.below(10) {
        0 => numbers(random, &mut records[nodes]),
        1 => renumber(random, records),
        2 => more_nodes(random, records),
        3 => {
            let kind = random.pick(&[2, 3, 3, 4]);
            records[nodes].iter_mut().filter(|record| record[0] > 1).for_each(|record| record[0] = kind);
        }
        4 => {
            let to = records[random.within(0, last)];
            records[nodes].fill(to);
        }
        _ => arcs(random, records, nodes),
    }
}

/// Up to so many conditions more, each leading to the one after it, the last of them to any node; or the last nodes go.
fn more_nodes(random: &mut Random, records: &mut Vec<Frame>) {
    let (count, scheme) = (records.len(), records[random.below(records.len())][1]);
    if count == NODES {
        records.truncate(random.within(2, count));
        return;
    }
    let end = random.within(count + 1, NODES);
    let to = random.below(count) as u8;
    for at in count..end {
        let next = if at + 1 < end { (at + 1) as u8 } else { to };
        records.push([3, scheme, (at % 16) as u8, next, next, 0, 0, 0, 0, 0]);
    }
}

/// Conditions' numbers: in turn, so many, or one.
fn numbers(random: &mut Random, records: &mut [Frame]) {
    let (first, different) = (random.below(16), random.within(1, 16));
    for (k, record) in records.iter_mut().filter(|record| record[0] == 3).enumerate() {
        record[2] = ((first + k % different) % 16) as u8;
    }
}

/// Leads arcs some nodes on or back, to one node, or to any.
fn arcs(random: &mut Random, records: &mut [Frame], nodes: std::ops::Range<usize>) {
    let last = records.len() - 1;
    let (slots, to) = (random.pick(&[[3, 3], [4, 4], [3, 4]]), random.within(1, last));
    let (manner, step) = (random.below(5), random.pick(&[1, 1, 2, 3, 8]));
    for at in nodes {
        let next = match manner {
            0 => (at + step).min(last),
            1 => at.saturating_sub(step).max(1),
            2 => to,
            3 => usize::from(records[at][7 - slots[0]]),
            _ => random.within(1, last),
        };
        for slot in slots {
            if slot == 3 && records[at][0] != 1 || records[at][0] > 2 {
                records[at][slot] = next as u8;
            }
        }
    }
}

/// Two nodes change their numbers, and the arcs to them follow.
fn renumber(random: &mut Random, records: &mut [Frame]) {
    let (a, b) = (random.below(records.len()), random.below(records.len()));
    records.swap(a, b);
    for record in records.iter_mut() {
        let slots = match record[0] {
            0 | 2 => 3..4,
            1 => 3..3,
            _ => 3..5,
        };
        for arc in &mut record[slots] {
            *arc = match usize::from(*arc) {
                to if to == a => b as u8,
                to if to == b => a as u8,
                _ => *arc,
            };
        }
    }
}

/// A change of entries, labels or rows, or of how many rows there are.
fn image(random: &mut Random, frames: &mut Vec<Frame>) {
    if frames.is_empty() {
        return;
    }
    let count = frames.len();
    let first_label = (1 + usize::from(frames[0][1])).min(count - 1);
    let first_row = (first_label + usize::from(frames[0][2]) + 1).min(count - 1);
    let part = match random.below(8) {
        0 => span(random, 1.min(count - 1), first_label),
        1..=3 => span(random, first_label, first_row),
        _ => span(random, first_row, count - 1),
    };
    match random.below(8) {
        0 => frames.swap(part.start, random.below(count)),
        1 => {
            let like = frames[random.below(count)];
            frames[part].fill(like);
        }
        2 => more_rows(random, frames, first_row),
        _ => fields(random, &mut frames[part]),
    }
}

/// Up to three fields of these frames get one value each.
fn fields(random: &mut Random, frames: &mut [Frame]) {
    for _ in 0..random.within(1, 3) {
        let field = random.within(0, 9);
        let value = match random.below(5) {
            0 => random.byte(),
            1 => 1 << random.below(8),
            _ => random.pick(&[0, 0, 1, 1, 2, 2, 3, 4, 16, 17, 255]),
        };
        frames.iter_mut().for_each(|frame| frame[field] = value);
    }
}

/// Rows are doubled or dropped, and the header tells how many are left.
fn more_rows(random: &mut Random, frames: &mut Vec<Frame>, first_row: usize) {
    let rows = frames.len() - first_row;
    let at = random.within(first_row, frames.len() - 1);
    if random.once_in(2) && rows > 1 {
        frames.remove(at);
    } else {
        let more = random.within(1, 64).min(ROWS.saturating_sub(rows));
        let like = frames[at];
        frames.splice(at..at, std::iter::repeat_n(like, more));
    }
    let rows = (frames.len() - first_row) as u16;
    frames[0][3..5].copy_from_slice(&rows.to_be_bytes());
}

/// A place, all places up to one, the depth, a full stack with any top, or a result.
fn state(random: &mut Random, input: &mut Input) {
    let state = &mut input.state;
    let (any, at) = (random.byte(), random.below(32));
    let label = random.pick(&[0, 1, 2, 3, 4, any]);
    match random.below(6) {
        0 => state.places[at] = label,
        1 => state.places[..=at].fill(label),
        2 => state.depth = at as u8 + 1,
        3 => state.size = 32,
        4 => {
            (state.size, state.depth) = (32, 32);
            state.places[1..31].fill(label);
            state.places[31] = random.pick(&[1, label]);
        }
        _ => state.results[random.below(16)] ^= true,
    }
}

/// Makes the state remember what is called now, so that it is not for this that it does not fit.
fn remember(input: &mut Input) {
    let Some(header) = input.frames.first() else { return };
    let (schemes, handler) = (usize::from(header[1]), header[5]);
    let label = |frame: &Frame| Label { kind: frame[2], called: frame[3], owner: frame[4], ..Label::NONE };
    let labels: Vec<Label> = input.frames.iter().skip(1 + schemes).map(label).collect();
    Shape { labels: &labels, schemes, handler }.remember(&mut input.state);
}

/// One word, or all from one on.
fn word(random: &mut Random, words: &mut [u16]) {
    let (any, one) = (random.number() as u16, 1 << random.below(16));
    let word = random.pick(&[0, 1, 0xFFFF, any, one]);
    let at = random.below(words.len());
    if random.once_in(2) {
        words[at] = word;
    } else {
        words[at..].fill(word);
    }
}

//! What is measured as inputs grow: each call on inputs of one form, five sizes of them, each twice the one before, up to the largest.

use comparison::entry_point::{EntryPoint, Input};
use comparison::samples;
use interface::{LABELS, NODES, OPERATIONS, PLACES, PRICED_WORDS, ROWS};
use reference::entry::{image_from_text, translated};
use reference::frames::{text_of, Frame};
use reference::image::Image;
use reference::live::Held;
use reference::machine;
use reference::prepare::table_of;
use reference::state::{fresh_state, State};

/// How many sizes are measured, each twice as large as the one before.
pub const SIZES: usize = 5;

/// By what the inputs grow.
#[derive(Clone, Copy, Debug, PartialEq, Eq)]
pub enum By {
    Nodes,
    Labels,
    Rows,
    Words,
    Places,
    Lists,
}

impl By {
    pub fn name(self) -> &'static str {
        match self {
            By::Nodes => "nodes",
            By::Labels => "labels",
            By::Rows => "rows",
            By::Words => "words",
            By::Places => "places",
            By::Lists => "lists",
        }
    }

    pub fn largest(self) -> usize {
        match self {
            By::Nodes => NODES,
            By::Labels => LABELS,
            By::Rows => ROWS,
            By::Words | By::Lists => PRICED_WORDS,
            By::Places => PLACES,
        }
    }

    pub fn sizes(self) -> [usize; SIZES] {
        std::array::from_fn(|at| self.largest() >> (SIZES - 1 - at))
    }
}

/// A call, by what its inputs grow, what they are, and as which power of their size it may grow by its definition.
pub struct Series {
    pub call: EntryPoint,
    pub by: By,
    pub inputs: &'static str,
    pub power: u32,
    pub input: fn(usize) -> Input,
}

pub fn all() -> Vec<Series> {
    let one = |call, by, inputs, input| Series { call, by, inputs, power: 1, input };
    let squared = |call, by, inputs, input| Series { call, by, inputs, power: 2, input };
    let mut all = Vec::new();
    for call in [EntryPoint::ReadChart, EntryPoint::WriteChart, EntryPoint::Translate, EntryPoint::Places] {
        all.push(one(call, By::Nodes, "operations in a line", |nodes| Input::of(line(nodes))));
    }
    for call in [EntryPoint::ReadChart, EntryPoint::WriteChart] {
        all.push(squared(call, By::Nodes, "conditions that lead to a circle", |nodes| {
            Input::of(circle(nodes))
        }));
    }
    for call in [EntryPoint::CheckImage, EntryPoint::Prepare, EntryPoint::ListRows] {
        all.push(one(call, By::Labels, "operations in a line", |labels| {
            of_image(&line(labels), Image::frames)
        }));
    }
    all.push(squared(EntryPoint::Minimise, By::Labels, "operations in a line", |labels| {
        of_image(&line(labels), Image::frames)
    }));
    all.push(squared(EntryPoint::Minimise, By::Labels, "labels told apart one after the other", |labels| {
        of_image(&alike(labels), Image::frames)
    }));
    for call in [EntryPoint::CheckTable, EntryPoint::Sum] {
        all.push(one(call, By::Labels, "operations in a line", |labels| of_image(&line(labels), table_of)));
    }
    all.push(one(EntryPoint::Rebind, By::Nodes, "operations in a line, the first of which calls", |nodes| {
        Input { state: fresh(), ..of_image(&calling(nodes), Image::frames) }
    }));
    for call in [EntryPoint::Translate, EntryPoint::Places] {
        all.push(one(call, By::Rows, "rows of one label", |rows| Input::of(fan(rows))));
    }
    for call in [EntryPoint::CheckImage, EntryPoint::Prepare, EntryPoint::ListRows] {
        all.push(one(call, By::Rows, "rows of one label", |rows| of_image(&fan(rows), Image::frames)));
    }
    for call in [EntryPoint::Tick, EntryPoint::Cause, EntryPoint::Spin] {
        all.push(one(call, By::Rows, "rows of one label", |rows| at_label(rows, Image::frames)));
    }
    for call in [EntryPoint::LiveTick, EntryPoint::LiveSpin] {
        all.push(one(call, By::Rows, "rows of one label", |rows| at_label(rows, table_of)));
    }
    all.push(squared(EntryPoint::Minimise, By::Rows, "rows of one label", |rows| {
        of_image(&fan(rows), Image::frames)
    }));
    for call in [EntryPoint::Run, EntryPoint::PricedRun] {
        all.push(one(call, By::Words, "chart P", |count| run_of(count, Image::frames)));
    }
    all.push(one(EntryPoint::LiveRun, By::Words, "chart P", |count| run_of(count, table_of)));
    all.push(one(EntryPoint::DryRun, By::Words, "chart P", |count| Input {
        value: PLACES,
        words: samples::words(count),
        ..Input::of(samples::chart_p())
    }));
    for call in [EntryPoint::LiveTick, EntryPoint::LiveSpin, EntryPoint::LiveRebind] {
        all.push(one(call, By::Places, "the largest image", deep));
    }
    all.push(one(EntryPoint::CountFillings, By::Lists, "chart P, one condition", |lists| Input {
        value: PLACES,
        lists: (lists.ilog2() as usize, 1),
        ..of_image(&samples::chart_p(), Image::frames)
    }));
    all
}

fn fresh() -> State {
    fresh_state(PLACES).expect("a good size")
}

/// What is made of a chart's image.
fn of_image(records: &[Frame], frames: fn(&Image) -> Vec<Frame>) -> Input {
    let text = translated(&text_of(records)).expect("a valid chart");
    Input::of(frames(&image_from_text(&text).expect("an accepted image")))
}

/// One scheme of so many nodes, in which each operation leads to the next: as many labels as nodes.
fn line(nodes: usize) -> Vec<Frame> {
    samples::operations(nodes - 2)
}

/// The same without anything that tells the operations apart but how far from the End they are.
fn alike(nodes: usize) -> Vec<Frame> {
    let mut records = line(nodes);
    for record in records.iter_mut().filter(|record| record[0] == 2) {
        *record = [2, 1, 0, record[3], 0, 0, 0, 0, 0, 0];
    }
    records
}

/// The same in two schemes: the first operation calls scheme 2, which does nothing.
fn calling(nodes: usize) -> Vec<Frame> {
    let mut records = line(nodes - 2);
    records[1][2] = 2;
    let next = records.len() as u8 + 1;
    records.push([0, 2, 0, next, 0, 0, 0, 0, 0, 0]);
    records.push([1, 2, 0, 0, 0, 0, 0, 0, 0, 0]);
    records
}

/// A line of conditions to the last of them, which leads to itself.
fn circle(nodes: usize) -> Vec<Frame> {
    let last = (nodes - 1) as u8;
    let mut records = vec![[0, 1, 0, 2, 0, 0, 0, 0, 0, 0], [1, 1, 0, 0, 0, 0, 0, 0, 0, 0]];
    records.extend((2..=last).map(|at| {
        let next = if at < last { at + 1 } else { last };
        [3, 1, (at - 2) % 16, next, next, 0, 0, 0, 0, 0]
    }));
    records
}

/// An operation, then a line of different conditions: so many rows of one label.
fn fan(rows: usize) -> Vec<Frame> {
    let conditions = rows.ilog2() as u8;
    let mut records = vec![[0, 1, 0, 1, 0, 0, 0, 0, 0, 0], [2, 1, 0, 2, 0, 0, 0, 0, 0, 1]];
    records.extend((0..conditions).map(|number| [3, 1, number, number + 3, number + 3, 0, 0, 0, 0, 0]));
    records.push([1, 1, 0, 0, 0, 0, 0, 0, 0, 0]);
    records
}

/// At the label of these rows, by the word that their last one is for.
fn at_label(rows: usize, frames: fn(&Image) -> Vec<Frame>) -> Input {
    let text = translated(&text_of(&fan(rows))).expect("a valid chart");
    let image = image_from_text(&text).expect("an accepted image");
    let state = machine::tick(&image, &fresh(), 0).expect("home leads on").state;
    Input { state, words: vec![u16::MAX], ..Input::of(frames(&image)) }
}

fn run_of(count: usize, frames: fn(&Image) -> Vec<Frame>) -> Input {
    let prices = std::array::from_fn::<_, OPERATIONS, _>(|bit| 2_000 + 7 * bit as u16);
    Input { state: fresh(), words: samples::words(count), prices, ..of_image(&samples::chart_p(), frames) }
}

/// A plain label above calls of scheme 2, in so many places.
fn deep(places: usize) -> Input {
    let frames = table_of(&image_from_text(&text_of(&samples::largest_image())).expect("an accepted image"));
    let held = Held::of(&frames.concat()).expect("a table");
    let mut labels = vec![3; places];
    (labels[0], labels[places - 1]) = (2, 255);
    Input { state: held.shape().state(PLACES as u8, &labels), words: vec![3], ..Input::of(frames) }
}

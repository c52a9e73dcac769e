//! An image as a value, its frames, and the image check: refusals 11 to 13.

use crate::answer::{refuse_if, refuse_lowest, Refusal};
use crate::frames::Frame;
use crate::state::Shape;
pub use interface::ROWS;

pub const PLAIN: u8 = 0;
pub const OPERATION_CALL: u8 = 1;
pub const FUNCTION_CALL: u8 = 2;
pub const RETURN: u8 = 3;
pub const HOME: u8 = 4;

#[derive(Clone, Copy, Debug, PartialEq, Eq)]
pub struct Label {
    pub kind: u8,
    pub called: u8,
    pub owner: u8,
    pub result: u8,
    pub mask: u32,
}

impl Label {
    pub const ZERO: Label = Label { kind: HOME, called: 0, owner: 1, result: 0, mask: 0 };
    pub const ONE: Label = Label { kind: RETURN, called: 0, owner: 0, result: 0, mask: 0 };
    /// What is found of a label that there is not.
    pub const NONE: Label = Label { kind: PLAIN, called: 0, owner: 0, result: 0, mask: 0 };

    pub fn calls(&self) -> bool {
        self.kind == OPERATION_CALL || self.kind == FUNCTION_CALL
    }
}

#[derive(Clone, Copy, Debug, PartialEq, Eq)]
pub struct Row {
    pub from: u8,
    pub care: u16,
    pub values: u16,
    pub function_bit: u8,
    pub next: u8,
}

/// `handler` is the scheme for a full stack, 0 for none; `entries[h - 1]` is the entry of scheme h; `labels[l]` is label l.
#[derive(Clone, Debug, PartialEq, Eq)]
pub struct Image {
    pub handler: u8,
    pub entries: Vec<u8>,
    pub labels: Vec<Label>,
    pub rows: Vec<Row>,
}

impl Image {
    pub fn shape(&self) -> Shape<'_> {
        Shape { labels: &self.labels, schemes: self.entries.len(), handler: self.handler }
    }

    /// The image's frames in order.
    pub fn frames(&self) -> Vec<Frame> {
        let mut frames = vec![self.header()];
        for (k, label) in self.entries.iter().enumerate() {
            frames.push([0x10, k as u8 + 1, *label, 0, 0, 0, 0, 0, 0, 0]);
        }
        for (number, label) in self.labels.iter().enumerate() {
            frames.push(label_frame(number as u8, label));
        }
        frames.extend(self.rows.iter().map(row_frame));
        frames
    }

    fn header(&self) -> Frame {
        let last = (self.labels.len() - 1) as u8;
        let [high, low] = (self.rows.len() as u16).to_be_bytes();
        [0x0F, self.entries.len() as u8, last, high, low, self.handler, 0, 0, 0, 0]
    }
}

fn label_frame(number: u8, label: &Label) -> Frame {
    let [a, b, c, d] = label.mask.to_be_bytes();
    [0x11, number, label.kind, label.called, label.owner, label.result, a, b, c, d]
}

fn row_frame(row: &Row) -> Frame {
    let [care_high, care_low] = row.care.to_be_bytes();
    let [values_high, values_low] = row.values.to_be_bytes();
    [0x12, row.from, care_high, care_low, values_high, values_low, row.function_bit, row.next, 0, 0]
}

/// Where the parts of an image stand among its frames.
struct Parts {
    schemes: usize,
    last: usize,
}

/// What a frame is, by its position.
enum Part {
    Header,
    Entry(usize),
    Label(usize),
    Row(usize),
}

impl Parts {
    fn of(&self, index: usize) -> Part {
        let first_label = 1 + self.schemes;
        let first_row = first_label + self.last + 1;
        if index == 0 {
            Part::Header
        } else if index < first_label {
            Part::Entry(index)
        } else if index < first_row {
            Part::Label(index - first_label)
        } else {
            Part::Row(index - first_row)
        }
    }

    /// The frame of a label that there is.
    fn label<'a>(&self, frames: &'a [Frame], label: u8) -> Option<&'a Frame> {
        if usize::from(label) <= self.last {
            Some(&frames[1 + self.schemes + usize::from(label)])
        } else {
            None
        }
    }
}

/// The image of these frames, or the first of refusals 11 to 13.
pub fn image_of(frames: &[Frame]) -> Result<Image, Refusal> {
    let header = &frames[0];
    let schemes = usize::from(header[1]);
    let last = usize::from(header[2]);
    let rows = usize::from(u16::from_be_bytes([header[3], header[4]]));
    refuse_if(Refusal::BadHeader, header[0] != 0x0F || header[6..].iter().any(|b| *b != 0))?;
    refuse_if(Refusal::BadHeader, !(1..=16).contains(&schemes) || last == 0 || rows > ROWS)?;
    refuse_if(Refusal::BadHeader, !handler_stands(header[5], schemes))?;
    refuse_if(Refusal::BadHeader, frames.len() != 1 + schemes + (last + 1) + rows)?;
    let parts = Parts { schemes, last };
    refuse_lowest(Refusal::StrayFrame, frames.len(), |f| misplaced(frames, &parts, f))?;
    refuse_lowest(Refusal::BadContent, frames.len(), |f| match parts.of(f) {
        Part::Header => false,
        Part::Entry(h) => !entry_stands(frames, &parts, h, &frames[f]),
        Part::Label(l) => !label_stands(&parts, l, &frames[f]),
        Part::Row(_) => !row_stands(frames, &parts, &frames[f]),
    })?;
    Ok(decoded(frames, &parts))
}

/// Whether a header may name this scheme as the handler: none, or one that can be called.
pub fn handler_stands(handler: u8, schemes: usize) -> bool {
    handler == 0 || (2..=schemes).contains(&usize::from(handler))
}

fn misplaced(frames: &[Frame], parts: &Parts, index: usize) -> bool {
    let frame = &frames[index];
    match parts.of(index) {
        Part::Header => false,
        Part::Entry(h) => frame[0] != 0x10 || usize::from(frame[1]) != h,
        Part::Label(l) => frame[0] != 0x11 || usize::from(frame[1]) != l,
        Part::Row(0) => frame[0] != 0x12,
        Part::Row(_) => frame[0] != 0x12 || frame[1] < frames[index - 1][1],
    }
}

const OWNER: usize = 4;

fn entry_stands(frames: &[Frame], parts: &Parts, scheme: usize, frame: &Frame) -> bool {
    let Some(label) = parts.label(frames, frame[2]) else {
        return false;
    };
    let end = if scheme == 1 { 0 } else { 1 };
    let owned = usize::from(label[OWNER]) == scheme;
    frame[3..].iter().all(|b| *b == 0) && (frame[2] == end || owned)
}

fn label_stands(parts: &Parts, number: usize, frame: &Frame) -> bool {
    if number == 0 {
        return *frame == label_frame(0, &Label::ZERO);
    }
    if number == 1 {
        return *frame == label_frame(1, &Label::ONE);
    }
    let [_, _, kind, called, owner, result, ..] = *frame;
    let called_stands = match kind {
        PLAIN => called == 0,
        OPERATION_CALL | FUNCTION_CALL => 2 <= called && usize::from(called) <= parts.schemes,
        _ => false,
    };
    called_stands && 1 <= owner && usize::from(owner) <= parts.schemes && result <= 2
}

fn row_stands(frames: &[Frame], parts: &Parts, frame: &Frame) -> bool {
    let row = row_of(frame);
    if row.from < 2 {
        return false;
    }
    let (Some(from), Some(next)) = (parts.label(frames, row.from), parts.label(frames, row.next)) else {
        return false;
    };
    let owner = from[OWNER];
    let end = if owner == 1 { 0 } else { 1 };
    let bit_stands = match row.function_bit {
        0 | 1 => from[2] == FUNCTION_CALL,
        bit => bit == 2,
    };
    row.values & !row.care == 0
        && bit_stands
        && (next[OWNER] == owner || row.next == end)
        && frame[8] == 0
        && frame[9] == 0
}

fn row_of(frame: &Frame) -> Row {
    Row {
        from: frame[1],
        care: u16::from_be_bytes([frame[2], frame[3]]),
        values: u16::from_be_bytes([frame[4], frame[5]]),
        function_bit: frame[6],
        next: frame[7],
    }
}

fn label_of(frame: &Frame) -> Label {
    Label {
        kind: frame[2],
        called: frame[3],
        owner: frame[4],
        result: frame[5],
        mask: u32::from_be_bytes([frame[6], frame[7], frame[8], frame[9]]),
    }
}

fn decoded(frames: &[Frame], parts: &Parts) -> Image {
    let (entries, rest) = frames[1..].split_at(parts.schemes);
    let (labels, rows) = rest.split_at(parts.last + 1);
    Image {
        handler: frames[0][5],
        entries: entries.iter().map(|f| f[2]).collect(),
        labels: labels.iter().map(label_of).collect(),
        rows: rows.iter().map(row_of).collect(),
    }
}

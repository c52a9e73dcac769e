//! The image's frames from records that refusals 4 to 9 let pass; refusal 10.

use super::chart::{Begins, BEGIN, CONDITION, END, FUNCTION, OPERATION};
use super::{IMAGE_FRAMES, NODES};
use reference::answer::Refusal;
use reference::frames::Frame;
use reference::image::ROWS;

/// Stands for no label.
const NONE: u16 = 256;

/// The label of each node, and the nodes of labels 2 up.
struct Labels {
    label: [u16; NODES],
    numbered: [u8; NODES],
    count: usize,
}

impl Labels {
    /// The label of a Begin that stops, else of the node after it.
    fn entry(&self, records: &[Frame], begin: u8) -> u8 {
        let begin = usize::from(begin);
        let start = if self.label[begin] == NONE { usize::from(records[begin][3]) } else { begin };
        self.label[start] as u8
    }
}

fn labels(records: &[Frame], begins: &Begins) -> Labels {
    let mut labels = Labels { label: [NONE; NODES], numbered: [0; NODES], count: 0 };
    let first = usize::from(records[usize::from(begins.begin[1])][3]);
    for (at, r) in records.iter().enumerate() {
        let stops = match r[0] {
            OPERATION | FUNCTION => true,
            CONDITION => at == first,
            BEGIN => r[1] != 1 && records[usize::from(r[3])][0] == CONDITION,
            _ => false,
        };
        if stops {
            labels.label[at] = labels.count as u16 + 2;
            labels.numbered[labels.count] = at as u8;
            labels.count += 1;
        } else if r[0] == END {
            labels.label[at] = u16::from(r[1] != 1);
        }
    }
    labels
}

/// Fills the image's frames in order and hands back those filled.
pub fn fill<'a>(
    records: &[Frame],
    begins: &Begins,
    image: &'a mut [Frame; IMAGE_FRAMES],
) -> Result<&'a [Frame], Refusal> {
    let labels = labels(records, begins);
    let schemes = usize::from(begins.schemes);
    let first_label = 1 + schemes;
    let first_row = first_label + labels.count + 2;
    let mut rows = Rows { records, label: &labels.label, rows: &mut image[first_row..], count: 0 };
    for (k, at) in labels.numbered[..labels.count].iter().enumerate() {
        if !rows.leave(k as u8 + 2, &records[usize::from(*at)]) {
            return Err(Refusal::ManyRows);
        }
    }
    let count = rows.count;
    let [high, low] = (count as u16).to_be_bytes();
    image[0] = [0x0F, begins.schemes, labels.count as u8 + 1, high, low, begins.handler, 0, 0, 0, 0];
    for (k, begin) in begins.begin[1..=schemes].iter().enumerate() {
        image[1 + k] = [0x10, k as u8 + 1, labels.entry(records, *begin), 0, 0, 0, 0, 0, 0, 0];
    }
    image[first_label] = [0x11, 0, 4, 0, 1, 0, 0, 0, 0, 0];
    image[first_label + 1] = [0x11, 1, 3, 0, 0, 0, 0, 0, 0, 0];
    for (k, at) in labels.numbered[..labels.count].iter().enumerate() {
        image[first_label + 2 + k] = label_frame(k as u8 + 2, &records[usize::from(*at)]);
    }
    Ok(&image[..first_row + count])
}

fn label_frame(label: u8, r: &Frame) -> Frame {
    match r[0] {
        OPERATION => [0x11, label, u8::from(r[2] != 0), r[2], r[1], r[5], r[6], r[7], r[8], r[9]],
        FUNCTION => [0x11, label, 2, r[2], r[1], 0, 0, 0, 0, 0],
        _ => [0x11, label, 0, 0, r[1], 0, 0, 0, 0, 0],
    }
}

struct Rows<'a> {
    records: &'a [Frame],
    label: &'a [u16; NODES],
    rows: &'a mut [Frame],
    count: usize,
}

/// What a path tested.
#[derive(Clone, Copy)]
struct Tested {
    care: u16,
    values: u16,
}

impl Rows<'_> {
    /// The rows of one label; false when there are too many.
    fn leave(&mut self, label: u8, r: &Frame) -> bool {
        let none = Tested { care: 0, values: 0 };
        match r[0] {
            FUNCTION => self.paths(label, 0, r[3], none) && self.paths(label, 1, r[4], none),
            CONDITION => {
                let care = 1 << r[2];
                self.paths(label, 2, r[3], Tested { care, values: 0 })
                    && self.paths(label, 2, r[4], Tested { care, values: care })
            }
            _ => self.paths(label, 2, r[3], none),
        }
    }

    /// The 0 side by recursion, the 1 side by going round.
    fn paths(&mut self, from: u8, function_bit: u8, node: u8, tested: Tested) -> bool {
        let mut at = usize::from(node);
        let Tested { mut care, mut values } = tested;
        while self.label[at] == NONE {
            let r = &self.records[at];
            let bit = 1 << r[2];
            if care & bit == 0 {
                care |= bit;
                if !self.paths(from, function_bit, r[3], Tested { care, values }) {
                    return false;
                }
                values |= bit;
            }
            at = usize::from(if values & bit == 0 { r[3] } else { r[4] });
        }
        if self.count == ROWS {
            return false;
        }
        let [care_high, care_low] = care.to_be_bytes();
        let [values_high, values_low] = values.to_be_bytes();
        let next = self.label[at] as u8;
        self.rows[self.count] =
            [0x12, from, care_high, care_low, values_high, values_low, function_bit, next, 0, 0];
        self.count += 1;
        true
    }
}

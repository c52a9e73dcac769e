//! Labels that act alike, joined. Rows of a label leave no word and bit out, and match none twice, where no two of them overlap and
//! they match 65,536 words together for each bit.

use super::image::Parts;
use super::IMAGE_FRAMES;
use reference::answer::Refusal;
use reference::frames::Frame;

const LABELS: usize = 256;

fn care(row: &Frame) -> u16 {
    u16::from_be_bytes([row[2], row[3]])
}

fn values(row: &Frame) -> u16 {
    u16::from_be_bytes([row[4], row[5]])
}

/// Whether two rows can match one word and bit.
fn overlap(a: &Frame, b: &Frame) -> bool {
    (values(a) ^ values(b)) & care(a) & care(b) == 0 && (a[6] == 2 || b[6] == 2 || a[6] == b[6])
}

/// Whether each word and bit matches just one of these rows.
fn even(rows: &[Frame]) -> bool {
    let words = |bit: u8| -> u64 {
        let own = rows.iter().filter(|row| row[6] == 2 || row[6] == bit);
        own.map(|row| 1u64 << (16 - care(row).count_ones())).sum()
    };
    words(0) == 65_536
        && words(1) == 65_536
        && rows.iter().enumerate().all(|(k, a)| !rows[..k].iter().any(|b| overlap(a, b)))
}

/// An image's labels and rows, and where each label's rows begin and end.
struct Machine<'a> {
    labels: &'a [Frame],
    rows: &'a [Frame],
    bounds: [u16; LABELS + 1],
}

impl<'a> Machine<'a> {
    fn new(labels: &'a [Frame], rows: &'a [Frame]) -> Machine<'a> {
        let mut bounds = [0; LABELS + 1];
        for row in rows {
            bounds[usize::from(row[1]) + 1] += 1;
        }
        for label in 0..LABELS {
            bounds[label + 1] += bounds[label];
        }
        Machine { labels, rows, bounds }
    }

    fn rows(&self, label: usize) -> &'a [Frame] {
        &self.rows[usize::from(self.bounds[label])..usize::from(self.bounds[label + 1])]
    }

    /// Whether two labels of a group lead to the same groups.
    fn alike(&self, groups: &[u8; LABELS], a: usize, b: usize) -> bool {
        let group = |row: &Frame| groups[usize::from(row[7])];
        let rows = self.rows(b);
        self.rows(a).iter().all(|r| rows.iter().all(|s| group(r) == group(s) || !overlap(r, s)))
    }

    /// The lowest member of each label's group. Groups begin with labels whose fields are equal, and are split until none has to be.
    fn groups(&self) -> [u8; LABELS] {
        let mut groups = [0; LABELS];
        for (at, label) in self.labels.iter().enumerate() {
            let same = self.labels[..at].iter().position(|other| other[2..] == label[2..]);
            groups[at] = same.unwrap_or(at) as u8;
        }
        loop {
            let mut split = groups;
            for at in 0..self.labels.len() {
                let lowest = usize::from(groups[at]);
                let candidates = (lowest..at).filter(|other| groups[*other] == groups[at]);
                let mut lowests = candidates.filter(|other| usize::from(split[*other]) == *other);
                split[at] = lowests.find(|other| self.alike(&groups, *other, at)).unwrap_or(at) as u8;
            }
            if split == groups {
                return groups;
            }
            groups = split;
        }
    }
}

/// The frames of the smaller image, or refusal 23.
pub fn fill<'a>(
    frames: &[Frame],
    parts: &Parts,
    out: &'a mut [Frame; IMAGE_FRAMES],
) -> Result<&'a [Frame], Refusal> {
    let (head, rest) = frames.split_at(1 + parts.schemes);
    let (labels, rows) = rest.split_at(parts.labels);
    let machine = Machine::new(labels, rows);
    if !(2..parts.labels).all(|label| even(machine.rows(label))) {
        return Err(Refusal::Uneven);
    }
    let groups = machine.groups();
    let (mut renumbered, mut kept) = ([0; LABELS], 0);
    for label in 0..parts.labels {
        if usize::from(groups[label]) == label {
            renumbered[label] = kept as u8;
            kept += 1;
        } else {
            renumbered[label] = renumbered[usize::from(groups[label])];
        }
    }
    let first_row = head.len() + kept;
    out[..head.len()].copy_from_slice(head);
    for entry in &mut out[1..head.len()] {
        entry[2] = renumbered[usize::from(entry[2])];
    }
    let (mut at, mut row_at) = (head.len(), first_row);
    for (label, frame) in labels.iter().enumerate().filter(|(label, _)| usize::from(groups[*label]) == *label)
    {
        out[at] = *frame;
        out[at][1] = renumbered[label];
        at += 1;
        for row in machine.rows(label) {
            out[row_at] = *row;
            (out[row_at][1], out[row_at][7]) = (renumbered[label], renumbered[usize::from(row[7])]);
            row_at += 1;
        }
    }
    let [high, low] = ((row_at - first_row) as u16).to_be_bytes();
    (out[0][2], out[0][3], out[0][4]) = ((kept - 1) as u8, high, low);
    Ok(&out[..row_at])
}

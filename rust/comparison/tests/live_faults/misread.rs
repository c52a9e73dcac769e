//! What a table is wrongly taken to hold.

use reference::image::{Label, Row};
use reference::live::Held;
use reference::Refusal;

use super::{Fault::*, Faulty};

/// What the header of a table tells, and its frames.
struct Raw<'a> {
    frames: &'a [[u8; 10]],
    schemes: usize,
    last: usize,
    end: usize,
}

impl<'a> Raw<'a> {
    fn of(bytes: &'a [u8]) -> Option<Raw<'a>> {
        let frames = bytes.as_chunks::<10>().0;
        let header = frames.first()?;
        let (schemes, last) = (usize::from(header[1]), usize::from(header[2]));
        let rows = usize::from(u16::from_be_bytes([header[3], header[4]]));
        Some(Raw { frames, schemes, last, end: 2 + schemes + last + rows })
    }

    fn label(&self, label: usize) -> &[u8; 10] {
        &self.frames[1 + self.schemes + label]
    }

    fn noted(&self, frame: usize) -> usize {
        let frame = self.frames[frame.min(self.frames.len() - 1)];
        usize::from(u16::from_le_bytes([frame[0], frame[1]]))
    }

    /// Where the rows of a label begin, and where they end.
    fn range(&self, label: usize) -> (usize, usize) {
        let at = 1 + self.schemes + label;
        (self.noted(at - 1), self.noted(at))
    }

    fn rows(&self, from: usize, end: usize) -> Vec<Row> {
        let frames = self.frames.get(from..end.min(self.frames.len())).unwrap_or(&[]);
        frames.iter().map(row_of).collect()
    }
}

fn row_of(frame: &[u8; 10]) -> Row {
    Row {
        from: frame[1],
        care: u16::from_be_bytes([frame[2], frame[3]]),
        values: u16::from_be_bytes([frame[4], frame[5]]),
        function_bit: frame[6],
        next: frame[7],
    }
}

impl Faulty {
    /// The image that a table is taken to hold.
    pub fn held(&self, bytes: &[u8]) -> Result<Held, Refusal> {
        let mut bytes = bytes.to_vec();
        let raw = Raw::of(&bytes);
        let whole = raw.as_ref().is_some_and(|raw| raw.frames.len() >= raw.end);
        match self.0 {
            LooksAtTheFirstByte if bytes.first().is_some_and(|byte| *byte != 0x0F) => {
                return Err(Refusal::BadHeader)
            }
            WantsNothingBehindTheTable if raw.is_some_and(|raw| 10 * raw.end != bytes.len()) => {
                return Err(Refusal::BadHeader);
            }
            CountsAPartFrame => bytes.resize(bytes.len().next_multiple_of(10), 0),
            TakesAnyRowCount if whole && bytes[3] >= 4 => (bytes[3], bytes[4]) = (4, 0),
            TakesAnyHandler if whole && (bytes[5] == 1 || bytes[5] > bytes[1]) => bytes[5] = 0,
            _ => {}
        }
        let mut held = Held::of(&bytes)?;
        self.misread(&mut held, &Raw::of(&bytes).expect("a header"));
        Ok(held)
    }

    fn misread(&self, held: &mut Held, raw: &Raw) {
        for label in 0..held.labels.len() {
            self.misread_label(&mut held.labels[label], label, raw);
        }
        for label in 2..held.labels.len() {
            self.misread_rows(held, label, raw);
        }
    }

    fn misread_label(&self, label: &mut Label, number: usize, raw: &Raw) {
        let frame = raw.label(number);
        match self.0 {
            TrustsKinds if number > 1 => label.kind = frame[2],
            TrustsLabelsZeroAndOne if number < 2 => {
                (label.owner, label.result) = (frame[4], frame[5]);
                label.mask = u32::from_be_bytes([frame[6], frame[7], frame[8], frame[9]]);
            }
            TakesTheLastSchemeForOneAbove if usize::from(frame[3]) > raw.schemes => {
                label.called = raw.schemes as u8;
            }
            _ => {}
        }
    }

    fn misread_rows(&self, held: &mut Held, label: usize, raw: &Raw) {
        let (first, end) = raw.range(label);
        let rows = match self.0 {
            ReadsRowsOfTheNextLabel if label < raw.last => {
                [held.rows[label].clone(), held.rows[label + 1].clone()].concat()
            }
            ReadsRowsPastTheEnd => raw.rows(first, end),
            ReadsReversedRows if end < first && first <= raw.end => raw.rows(end, first),
            WantsRowsOfTheirLabel => {
                let mut rows = raw.rows(first, end.min(raw.end));
                rows.retain(|row| usize::from(row.from) == label);
                rows
            }
            EndsTheLastLabelWithTheTable if label == raw.last => raw.rows(first, raw.end),
            _ => return,
        };
        held.rows[label] = rows;
    }
}

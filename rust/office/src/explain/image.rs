//! Refusals 11 and 12: the image's header, and the lines that follow it.

use fairleadow::{ROWS, SCHEMES};

use crate::problem::{counted, thousands, Problem};

pub type Frame = [u8; 10];

/// What the header says: the number of schemes, the highest label, the number of rows, and the handler, 0 for none.
#[derive(Clone, Copy, Debug)]
pub struct Header {
    pub schemes: usize,
    pub last: usize,
    pub rows: usize,
    pub handler: u8,
}

/// What a frame is, by its position.
pub enum Part {
    Header,
    Entry(usize),
    Label(usize),
    Row,
}

impl Header {
    pub fn of(frame: &Frame) -> Header {
        let rows = usize::from(u16::from_be_bytes([frame[3], frame[4]]));
        Header { schemes: usize::from(frame[1]), last: usize::from(frame[2]), rows, handler: frame[5] }
    }

    /// The index of label 0.
    fn first_label(&self) -> usize {
        1 + self.schemes
    }

    /// The index of row 0.
    pub fn first_row(&self) -> usize {
        self.first_label() + self.last + 1
    }

    pub fn part(&self, index: usize) -> Part {
        match index {
            0 => Part::Header,
            entry if entry < self.first_label() => Part::Entry(entry),
            label if label < self.first_row() => Part::Label(label - self.first_label()),
            _ => Part::Row,
        }
    }

    /// The line of a label, counted from 1.
    pub fn line_of(&self, label: u8) -> usize {
        self.first_label() + usize::from(label) + 1
    }

    /// The frame of a label that there is.
    pub fn label<'a>(&self, frames: &'a [Frame], label: u8) -> Option<&'a Frame> {
        frames[self.first_label()..].get(usize::from(label)).filter(|_| usize::from(label) <= self.last)
    }
}

/// What a scheme's number should be.
pub fn numbers(low: usize, high: usize) -> String {
    if high == low {
        format!("it should be {low:02X}")
    } else {
        format!("it should be {low:02X} to {high:02X}")
    }
}

/// A problem at a byte of a frame.
pub fn at(index: usize, byte: usize, what: &str, advice: &str) -> Problem {
    Problem::at(index + 1, 2 * byte + 1, what).advice(advice)
}

/// Refusal 11: the first line.
pub fn header(frames: &[Frame]) -> Option<Problem> {
    let frame = frames.first()?;
    let header = Header::of(frame);
    header_field(frame)
        .or_else(|| wrong_handler(header))
        .or_else(|| needless_byte(frame))
        .or_else(|| line_count(frames, header))
}

fn header_field(frame: &Frame) -> Option<Problem> {
    let Header { schemes, last, rows, .. } = Header::of(frame);
    let here = |byte: usize, what: String, advice: &str| Some(at(0, byte, &what, advice));
    if frame[0] != 0x0F {
        return here(
            0,
            format!("an image begins with 0F, not {:02X}", frame[0]),
            "a chart in place of an image",
        );
    }
    if !(1..=SCHEMES).contains(&schemes) {
        let what =
            format!("the number of schemes is {schemes:02X}; it should be 01 to 10, 1 to 16 in decimal");
        return here(1, what, "a count typed in decimal");
    }
    if last == 0 {
        let what = "the highest label is 00; it should be 01 at least, for label 1 is in every image";
        return here(2, what.into(), "labels counted without 0 and 1");
    }
    if rows > ROWS {
        let what = format!(
            "the number of rows is {rows:04X}, {} in decimal; it should be 0400 at most",
            thousands(rows)
        );
        return here(3, what, "a count whose two bytes are swapped");
    }
    None
}

/// The handler is none, or a scheme that can be called.
fn wrong_handler(header: Header) -> Option<Problem> {
    let Header { schemes, handler, .. } = header;
    if handler == 0 || (2..=schemes).contains(&usize::from(handler)) {
        return None;
    }
    let wanted = match schemes {
        1 => "with one scheme it should be 00".to_string(),
        _ => format!("{}, or 00 for none", numbers(2, schemes)),
    };
    let what = format!("the handler is scheme {handler:02X}; {wanted}");
    Some(at(0, 5, &what, "a wrong number of schemes; scheme 1, which is never the handler"))
}

/// The bytes after the handler, which are 0.
fn needless_byte(frame: &Frame) -> Option<Problem> {
    let byte = (6..10).find(|byte| frame[*byte] != 0)?;
    let what = format!(
        "{:02X} stands here, but the first line has no use for this byte: it should be 00",
        frame[byte]
    );
    Some(at(0, byte, &what, "digits shifted by two"))
}

/// How many lines follow the first against what it says.
fn line_count(frames: &[Frame], header: Header) -> Option<Problem> {
    let Header { schemes, last, rows, .. } = header;
    let wanted = 1 + schemes + last + 1 + rows;
    if frames.len() == wanted {
        return None;
    }
    let begin = |mark: u8| frames.iter().filter(|frame| frame[0] == mark).count();
    let parts = [(0x10, "entries", 1, schemes), (0x11, "labels", 2, last + 1), (0x12, "rows", 3, rows)];
    let wrong = parts.into_iter().find(|(mark, _, _, count)| begin(*mark) != *count);
    let byte = wrong.map_or(1, |(_, _, byte, _)| byte);
    let but = wrong.map_or(String::new(), |(mark, named, _, count)| {
        let (found, count) = (thousands(begin(mark)), thousands(count));
        format!(": {found} that begin with {mark:02X}, the {named}, where the first line says {count}")
    });
    let what = format!(
        "the first line makes the image {}, but there are {}{but}",
        counted(wanted, "line"),
        thousands(frames.len())
    );
    let advice = "a line lost or doubled; a row added by hand and not counted in the first line";
    Some(at(0, byte, &what, advice))
}

/// Refusal 12: the line that does not belong where it stands.
pub fn place(frames: &[Frame], index: usize) -> Option<Problem> {
    let frame = frames.get(index)?;
    match Header::of(&frames[0]).part(index) {
        Part::Header => None,
        Part::Entry(scheme) => {
            numbered(index, frame, [0x10, scheme as u8], &format!("the entry of scheme {scheme}"))
        }
        Part::Label(label) => numbered(index, frame, [0x11, label as u8], &format!("label {label}")),
        Part::Row if frame[0] != 0x12 => {
            let what = format!("a row belongs here, which begins with 12, not {:02X}", frame[0]);
            Some(at(index, 0, &what, ORDER))
        }
        Part::Row => row_order(frames, index),
    }
}

const ORDER: &str = "lines out of order, one lost and one doubled; a row put among the labels";

fn numbered(index: usize, frame: &Frame, wanted: [u8; 2], named: &str) -> Option<Problem> {
    let byte = (0..2).find(|byte| frame[*byte] != wanted[*byte])?;
    let [mark, number] = wanted;
    let stands = format!("{:02X}{:02X}", frame[0], frame[1]);
    let what = format!("{named} belongs here, which begins with {mark:02X}{number:02X}, not {stands}");
    Some(at(index, byte, &what, ORDER))
}

fn row_order(frames: &[Frame], index: usize) -> Option<Problem> {
    let (before, from) = (frames.get(index.checked_sub(1)?)?[1], frames[index][1]);
    let what = format!(
        "this row leaves label {from:02X}, but the row before it leaves label {before:02X}; rows stand in the order \
         of their labels"
    );
    let advice = "a row put in by hand among those of another label";
    (from < before).then(|| at(index, 1, &what, advice))
}

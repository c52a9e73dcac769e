//! An accepted image as labels and rows.

use fairleadow::{Library, Proved, State, TABLE};

use crate::explain;
use crate::explain::image::{Frame, Header, Part};
use crate::kind::Kind;
use crate::other;
use crate::problem::Problem;

/// The text of an accepted image, and its lines.
#[derive(Clone, Debug)]
pub struct Image {
    pub text: Vec<u8>,
    header: Header,
    frames: Vec<Frame>,
    tested: u16,
}

/// The label that a row leaves, the conditions that it asks for and their values, the result that it asks for (2 for none), and
/// the next label.
#[derive(Clone, Copy, Debug, PartialEq, Eq)]
pub struct Row {
    pub from: u8,
    pub care: u16,
    pub values: u16,
    pub result: u8,
    pub next: u8,
}

/// A label of a state's stack, with the scheme that is open there and the number that it was called by.
#[derive(Clone, Copy, Debug, PartialEq, Eq)]
pub struct Open {
    pub label: u8,
    pub scheme: u8,
    pub number: u8,
}

/// What a label holds.
#[derive(Clone, Copy, Debug, PartialEq, Eq)]
pub struct Fields {
    pub kind: u8,
    pub called: u8,
    pub owner: u8,
    pub result: u8,
    pub mask: u32,
}

/// The kind of a label that calls a function.
pub const FUNCTION_CALL: u8 = 2;

/// The label that stands for the End of a scheme.
pub fn end_of(scheme: u8) -> u8 {
    u8::from(scheme != 1)
}

impl Row {
    fn of(frame: &Frame) -> Row {
        let pair = |at: usize| u16::from_be_bytes([frame[at], frame[at + 1]]);
        Row { from: frame[1], care: pair(2), values: pair(4), result: frame[6], next: frame[7] }
    }

    /// As it stands in an image.
    pub fn frame(&self) -> Frame {
        let ([a, b], [c, d]) = (self.care.to_be_bytes(), self.values.to_be_bytes());
        [0x12, self.from, a, b, c, d, self.result, self.next, 0, 0]
    }

    /// Whether it leaves the same label as another and asks for the same.
    pub fn asks_as(&self, other: &Row) -> bool {
        Row { next: other.next, ..*self } == *other
    }
}

/// The lines of frames, each with its sum.
fn text_of(frames: &[Frame]) -> Vec<u8> {
    let line = |frame: &Frame| {
        let sum = frame.iter().fold(0u8, |sum, byte| sum.wrapping_sub(*byte));
        let digits: String = frame.iter().chain([&sum]).map(|byte| format!("{byte:02X}")).collect();
        digits + "\n"
    };
    frames.iter().map(line).collect::<String>().into_bytes()
}

impl Image {
    /// Of a text that the library has accepted.
    pub fn accepted(text: Vec<u8>) -> Image {
        let frames = explain::frames(&text).expect("an accepted image has lines");
        let header = Header::of(&frames[0]);
        let tested =
            frames[header.first_row()..].iter().fold(0, |tested, frame| tested | Row::of(frame).care);
        Image { header, frames, text, tested }
    }

    /// From the bytes of a file that looks like an image, or why the library refuses it.
    pub fn read(text: Vec<u8>) -> Result<Image, Problem> {
        other::refused(&text, "an image")?;
        match Proved.check_image(&text) {
            Ok(_) => Ok(Image::accepted(text)),
            Err(refusal) => Err(explain::refusal(&text, Kind::Image, refusal)),
        }
    }

    /// The text of this image with other rows, as many as the header then counts. Whether it is an image is for the library to say.
    pub fn with_rows(&self, rows: &[Row]) -> Vec<u8> {
        let mut frames = self.frames[..self.header.first_row()].to_vec();
        let [high, low] = (rows.len() as u16).to_be_bytes();
        (frames[0][3], frames[0][4]) = (high, low);
        frames.extend(rows.iter().map(Row::frame));
        text_of(&frames)
    }

    /// An image with the labels and rows of this one, all of scheme 1, so that a state may stand at each of them: every row leads where
    /// it led, and to the End of scheme 1 in the place of another End. Every other scheme is empty, and there is no handler.
    pub fn in_one_scheme(&self) -> Result<Image, Problem> {
        let mut frames = self.frames.clone();
        frames[0][5] = 0;
        for (index, frame) in frames.iter_mut().enumerate().skip(1) {
            match self.header.part(index) {
                Part::Entry(scheme) => frame[2] = end_of(scheme as u8),
                Part::Label(2..) => frame[4] = 1,
                Part::Row if frame[7] == 1 => frame[7] = 0,
                _ => {}
            }
        }
        Image::read(text_of(&frames))
    }

    /// How many schemes it has.
    pub fn schemes(&self) -> u8 {
        self.header.schemes as u8
    }

    /// The number that a label calls, 0 for none.
    pub fn called(&self, label: u8) -> u8 {
        self.label(label).called
    }

    /// What a label of the image holds.
    pub fn label(&self, label: u8) -> Fields {
        let [kind, called, owner, result, mask @ ..] = self.fields(label);
        Fields { kind, called, owner, result, mask: u32::from_be_bytes(mask) }
    }

    /// Its table for live ticks and rebindings: the text is read and checked for it once, and no more in each tick.
    pub fn prepared(&self) -> Result<Vec<u8>, Problem> {
        let mut table = vec![0; TABLE];
        match Proved.prepare(&self.text, &mut table) {
            Ok(length) => {
                table.truncate(length);
                Ok(table)
            }
            Err(refusal) => Err(explain::refusal(&self.text, Kind::Image, refusal)),
        }
    }

    /// The scheme that is performed when the stack is full, 0 for none.
    pub fn handler(&self) -> u8 {
        self.header.handler
    }

    /// How many labels it has.
    pub fn labels(&self) -> usize {
        self.header.last + 1
    }

    /// The label that a scheme begins with.
    pub fn entry(&self, scheme: u8) -> u8 {
        self.frames[usize::from(scheme)][2]
    }

    /// What a label holds: its kind, the scheme called, its owner, its result and its mask.
    pub fn fields(&self, label: u8) -> [u8; 8] {
        let frame = self.header.label(&self.frames, label).expect("a label of the image");
        frame[2..].try_into().expect("eight bytes")
    }

    /// Every row, in order.
    pub fn rows(&self) -> impl Iterator<Item = Row> + '_ {
        self.frames[self.header.first_row()..].iter().map(Row::of)
    }

    /// A row by its number among the rows, from 0.
    pub fn row(&self, number: u16) -> Row {
        Row::of(&self.frames[self.header.first_row() + usize::from(number)])
    }

    /// The rows of a label.
    pub fn rows_of(&self, label: u8) -> impl Iterator<Item = Row> + '_ {
        self.rows().filter(move |row| row.from == label)
    }

    /// The conditions that some row tests, as a mask.
    pub fn tested(&self) -> u16 {
        self.tested
    }

    /// The outputs that some label puts out, as a mask.
    pub fn outputs(&self) -> u32 {
        (0..self.labels()).fold(0, |outputs, label| outputs | self.label(label as u8).mask)
    }

    /// The open labels of a fitting state, the bottom first, each with the scheme that the state remembers for it.
    pub fn open(&self, state: &State) -> Vec<Open> {
        let open = |at: usize| Open {
            label: state.places[at],
            scheme: state.servers[at],
            number: state.numbers[at],
        };
        (0..usize::from(state.depth)).map(open).collect()
    }
}

//! Refusal 13: the fields of entries, labels and rows.

use crate::problem::Problem;

use super::image::{at, numbers, Frame, Header, Part};

/// The byte of a label that holds its owner.
const OWNER: usize = 4;

/// The byte at fault, what is wrong with it, and what to look for.
type Wrong = (usize, String, &'static str);

/// The first field of the line outside its values.
pub fn field(frames: &[Frame], index: usize) -> Option<Problem> {
    let frame = frames.get(index)?;
    let header = Header::of(&frames[0]);
    let (byte, what, advice) = match header.part(index) {
        Part::Header => None,
        Part::Entry(scheme) => entry(frames, header, scheme),
        Part::Label(label @ (0 | 1)) => fixed_label(frame, label),
        Part::Label(_) => label_field(frame, header),
        Part::Row => row_field(frames, header, frame),
    }?;
    Some(at(index, byte, &what, advice))
}

/// A byte of these that is not 0.
fn needless(frame: &Frame, bytes: std::ops::Range<usize>, named: &str) -> Option<Wrong> {
    let byte = bytes.into_iter().find(|byte| frame[*byte] != 0)?;
    let what =
        format!("{:02X} stands here, but {named} has no use for this byte: it should be 00", frame[byte]);
    Some((byte, what, "digits shifted by two; leftovers from another line"))
}

/// The label that stands for the End of a scheme.
fn end_of(scheme: usize) -> u8 {
    u8::from(scheme != 1)
}

fn too_high(byte: usize, named: &str, label: u8, header: Header) -> Wrong {
    let what = format!("{named} is label {label:02X}, but the highest label is {:02X}", header.last);
    (byte, what, "labels that were numbered anew; a wrong highest label in the first line")
}

fn entry(frames: &[Frame], header: Header, scheme: usize) -> Option<Wrong> {
    let frame = &frames[scheme];
    let label = frame[2];
    let named = format!("the entry of scheme {scheme}");
    let Some(entered) = header.label(frames, label) else {
        return Some(too_high(2, &named, label, header));
    };
    if label != end_of(scheme) && usize::from(entered[OWNER]) != scheme {
        let what = format!("{named} is label {label:02X}, which {}", owner_of(header, entered, label));
        return Some((2, what, "entries that were swapped; the owner of that label"));
    }
    needless(frame, 3..10, "an entry")
}

/// Whom a label belongs to, and where that stands.
fn owner_of(header: Header, frame: &Frame, label: u8) -> String {
    let line = header.line_of(label);
    match label {
        0 => format!("is the home label of scheme 1 (line {line})"),
        1 => format!("is the return label (line {line})"),
        _ => format!("belongs to scheme {} (byte 4 of line {line})", frame[OWNER]),
    }
}

/// Labels 0 and 1 are the same in every image.
fn fixed_label(frame: &Frame, label: usize) -> Option<Wrong> {
    let (wanted, named): (Frame, _) = if label == 0 {
        ([0x11, 0, 4, 0, 1, 0, 0, 0, 0, 0], "home label, 0, is 11000400010000000000EA")
    } else {
        ([0x11, 1, 3, 0, 0, 0, 0, 0, 0, 0], "return label, 1, is 11010300000000000000EB")
    };
    let byte = (2..10).find(|byte| frame[*byte] != wanted[*byte])?;
    let what = format!(
        "the {named} in every image: this byte should be {:02X}, not {:02X}",
        wanted[byte], frame[byte]
    );
    Some((byte, what, "an owner, a result or a mask put in the wrong label"))
}

fn label_field(frame: &Frame, header: Header) -> Option<Wrong> {
    let [_, _, kind, called, owner, result, ..] = *frame;
    let schemes = header.schemes;
    if kind > 2 {
        let what = format!(
            "the kind of the label is {kind:02X}; from label 2 up it should be 00 plain, 01 or 02 a call"
        );
        return Some((2, what, "03 and 04 belong to labels 1 and 0 alone"));
    }
    if kind != 0 && schemes == 1 {
        let what = format!(
            "the kind of the label is {kind:02X}, a call, but the image has one scheme: nothing to call"
        );
        return Some((2, what, "a wrong number of schemes in the first line; a kind that should be 00"));
    }
    if kind == 0 && called != 0 {
        let what = format!("a plain label calls nothing: this byte should be 00, not {called:02X}");
        return Some((3, what, "a kind (byte 2) that should be 01 or 02"));
    }
    if kind != 0 && !(2..=schemes).contains(&usize::from(called)) {
        let what = format!("the scheme called is {called:02X}; {}", numbers(2, schemes));
        return Some((3, what, "a scheme that was left out; a kind (byte 2) that should be 00"));
    }
    if !(1..=schemes).contains(&usize::from(owner)) {
        let what = format!("the owner is scheme {owner:02X}; {}", numbers(1, schemes));
        return Some((OWNER, what, "a wrong number of schemes in the first line"));
    }
    let what = format!("the result is {result:02X}; it should be 00 (keep), 01 (write 0) or 02 (write 1)");
    (result > 2).then_some((5, what, "a digit of the mask one place too far left"))
}

fn row_field(frames: &[Frame], header: Header, frame: &Frame) -> Option<Wrong> {
    let from = frame[1];
    if from < 2 {
        let what = format!("a row leaves label 02 or one above it, not {from:02X}");
        return Some((
            1,
            what,
            "labels 0 and 1, which have no rows: the home tick goes to the entry of scheme 1",
        ));
    }
    let Some(label) = header.label(frames, from) else {
        return Some(too_high(1, "the label that this row leaves", from, header));
    };
    outside_care(frame)
        .or_else(|| function_bit(frame, label, header))
        .or_else(|| next_label(frames, header, frame, label))
        .or_else(|| needless(frame, 8..10, "a row"))
}

fn outside_care(frame: &Frame) -> Option<Wrong> {
    let byte = (4..6).find(|byte| frame[*byte] & !frame[*byte - 2] != 0)?;
    let (values, care) = (frame[byte], frame[byte - 2]);
    let what = format!("the values are {values:02X}, but the care mask two bytes before has only {care:02X}");
    Some((byte, what, "a condition that should be in the care mask (bytes 2 and 3) too"))
}

fn function_bit(frame: &Frame, label: &Frame, header: Header) -> Option<Wrong> {
    let bit = frame[6];
    if bit > 2 {
        let what = format!("the function bit is {bit:02X}; it should be 00, 01, or 02 for none");
        return Some((6, what, "digits shifted by two"));
    }
    let line = header.line_of(frame[1]);
    let what =
        format!("the function bit is {bit:02X}, but label {:02X} (line {line}) calls no function", frame[1]);
    (bit < 2 && label[2] != 2).then_some((
        6,
        what,
        "02 stands in the rows of every label that calls no function",
    ))
}

fn next_label(frames: &[Frame], header: Header, frame: &Frame, label: &Frame) -> Option<Wrong> {
    let next = frame[7];
    let Some(reached) = header.label(frames, next) else {
        return Some(too_high(7, "the next label", next, header));
    };
    let owner = label[OWNER];
    if reached[OWNER] == owner || next == end_of(usize::from(owner)) {
        return None;
    }
    let where_to = owner_of(header, reached, next);
    let what = format!(
        "the next label is {next:02X}, which {where_to}, but the row leaves a label of scheme {owner}"
    );
    Some((7, what, "a next label of another scheme; 00 ends scheme 1 and 01 every other"))
}

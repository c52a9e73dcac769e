//! Libraries with one fault each in what notices damage, the check of a table or the sum of bytes: the comparison must find every one.

#[macro_use]
mod common;

use common::is_found;
use reference::frames::Frame;
use reference::image::image_of;
use reference::live::Held;
use reference::prepare::table_of;
use reference::{as_the_reference, told, Answer, Library, Reference, Refusal};

faults! {
    // which tables pass
    PassesAnyNote,
    PassesANoteByItsLowByte,
    PassesAnyNoteOfALabelWithoutRows,
    PassesAnyNoteOfTheLastLabel,
    PassesWhatLiveCallsTake,
    PassesAnyFirstByte,
    PassesEntriesOfAnyNumber,
    PassesRowsOfAnyKind,
    PassesBytesBehind,
    PassesAPartFrame,
    CountsTheRowsThatAreThere,
    PassesNothing,
    // what is told of the others, and counted
    RefusesNoBytesAsAText,
    TriesNotesBeforeFields,
    TellsAStrayFrameForAField,
    TellsAFieldForAStrayFrame,
    NamesNoFrame,
    NamesTheFrameAfter,
    NamesTheLabel,
    CountsFrames,
    // what bytes are summed to
    BeginsAnew,
    BeginsWithTheSumAsItStands,
    EndsWithTheRegisterAsItStands,
    SumsNoBytesToNothing,
    LeavesOutTheFirstByte,
    LeavesOutTheLastByte,
    TakesALengthOfOneByte,
    TakesAnotherPolynomial,
    TakesTheHighestBitFirst,
    TakesSevenBits,
    AddsTheBytes,
}

const POLYNOMIAL: u32 = 0xEDB8_8320;

/// That of CRC-32C (iSCSI).
const ANOTHER_POLYNOMIAL: u32 = 0x82F6_3B78;

/// The reference with one fault.
struct Faulty(Fault);

/// The numbers of the first label's frame, of the first row's, and of the one past the last, by the header.
fn parts(frames: &[Frame]) -> (usize, usize, usize) {
    let labels = 1 + usize::from(frames[0][1]);
    let rows = labels + 1 + usize::from(frames[0][2]);
    (labels, rows, rows + usize::from(u16::from_be_bytes([frames[0][3], frames[0][4]])))
}

/// The table of the image whose table this is but for the notes, if there is one.
fn noted_anew(frames: &[Frame]) -> Option<Vec<Frame>> {
    let (labels, ..) = parts(frames);
    let mut image = frames.to_vec();
    for (number, label) in image.iter_mut().skip(labels).take(1 + usize::from(frames[0][2])).enumerate() {
        label[..2].copy_from_slice(&[0x11, number as u8]);
    }
    image_of(&image).ok().map(|image| table_of(&image))
}

/// The lowest frame of a label that does not note where its rows end, of as many frames as the header counts.
fn misnoted(frames: &[Frame]) -> Option<usize> {
    let (labels, rows, end) = parts(frames);
    (labels..rows).find(|frame| {
        let above = (rows..end).find(|row| usize::from(frames[*row][1]) > frame - labels);
        let noted = u16::from_le_bytes([frames[*frame][0], frames[*frame][1]]);
        usize::from(noted) != above.unwrap_or(end)
    })
}

/// The register after these bytes, so many bits of each.
fn divided(register: u32, bytes: &[u8], polynomial: u32, bits: usize) -> u32 {
    bytes.iter().fold(register, |register, byte| {
        (0..bits).fold(register ^ u32::from(*byte), |register, _| {
            (register >> 1) ^ if register % 2 == 1 { polynomial } else { 0 }
        })
    })
}

impl Faulty {
    /// Mends what the fault passes over, but for the notes.
    fn mend(&self, frames: &mut Vec<Frame>) {
        let (labels, rows, end) = parts(frames);
        let count = frames.len();
        match self.0 {
            PassesAnyFirstByte => frames[0][0] = 0x0F,
            PassesEntriesOfAnyNumber => {
                let entries = frames.iter_mut().enumerate().take(labels).skip(1);
                entries.for_each(|(number, entry)| entry[1] = number as u8);
            }
            PassesRowsOfAnyKind => frames.iter_mut().skip(rows).for_each(|row| row[0] = 0x12),
            PassesBytesBehind => frames.truncate(end),
            CountsTheRowsThatAreThere if (rows..end).contains(&count) => {
                frames[0][3..5].copy_from_slice(&((count - rows) as u16).to_be_bytes());
            }
            _ => {}
        }
    }

    /// Mends the notes that the fault passes over.
    fn mend_notes(&self, frames: &mut [Frame]) {
        let Some(table) = noted_anew(frames) else { return };
        let (labels, rows, _) = parts(frames);
        for at in labels..rows {
            let passed = match self.0 {
                PassesAnyNote => true,
                PassesANoteByItsLowByte => frames[at][0] == table[at][0],
                PassesAnyNoteOfALabelWithoutRows => at > labels && table[at][..2] == table[at - 1][..2],
                PassesAnyNoteOfTheLastLabel => at + 1 == rows,
                _ => false,
            };
            if passed {
                frames[at] = table[at];
            }
        }
    }

    /// What is told in the place of a refusal.
    fn mistold(&self, frames: &[Frame], refusal: Refusal) -> Answer {
        let (number, index) = (refusal.number(), refusal.index());
        let (number, index) = match (self.0, number) {
            (RefusesNoBytesAsAText, 11) if frames.is_empty() => (1, 0),
            (TriesNotesBeforeFields, 13) => (number, misnoted(frames).unwrap_or(index)),
            (TellsAStrayFrameForAField, 13) => (12, index),
            (TellsAFieldForAStrayFrame, 12) => (13, index),
            (NamesNoFrame, _) => (number, 0),
            (NamesTheFrameAfter, 12 | 13) => (number, index + 1),
            (NamesTheLabel, 13) => (number, index.saturating_sub(parts(frames).0)),
            _ => (number, index),
        };
        told(number, index, 0)
    }
}

impl Library for Faulty {
    as_the_reference!(
        chart_calls,
        check_image,
        cause,
        list_rows,
        minimise,
        count_fillings,
        prepare,
        run_calls,
        rebindings,
        spins,
        value_calls,
    );

    fn check_table(&self, table: &[u8]) -> Answer {
        let (frames, rest) = table.as_chunks();
        let (mut mended, mut rest) = (frames.to_vec(), rest.to_vec());
        if !frames.is_empty() {
            self.mend(&mut mended);
            self.mend_notes(&mut mended);
        }
        if self.0 == PassesAPartFrame || self.0 == PassesBytesBehind {
            rest.clear();
        }
        match Reference.check_table(&[mended.concat(), rest].concat()) {
            Ok(_) if self.0 == PassesNothing => Err(Refusal::BadHeader),
            Ok(_) if self.0 == CountsFrames => Ok(frames.len()),
            Err(_) if self.0 == PassesWhatLiveCallsTake && Held::of(table).is_ok() => Ok(0),
            Err(refusal) => self.mistold(frames, refusal),
            done => done,
        }
    }

    fn sum(&self, sum: u32, bytes: &[u8]) -> u32 {
        let begun = match self.0 {
            BeginsAnew => 0,
            BeginsWithTheSumAsItStands => !sum,
            _ => sum,
        };
        let length = match self.0 {
            LeavesOutTheLastByte => bytes.len().saturating_sub(1),
            TakesALengthOfOneByte => bytes.len() % 256,
            _ => bytes.len(),
        };
        let first = usize::from(self.0 == LeavesOutTheFirstByte).min(length);
        let mut summed = bytes[first..length].to_vec();
        if self.0 == TakesTheHighestBitFirst {
            summed.iter_mut().for_each(|byte| *byte = byte.reverse_bits());
        }
        let polynomial = if self.0 == TakesAnotherPolynomial { ANOTHER_POLYNOMIAL } else { POLYNOMIAL };
        let bits = if self.0 == TakesSevenBits { 7 } else { 8 };
        let after = divided(!begun, &summed, polynomial, bits);
        match self.0 {
            EndsWithTheRegisterAsItStands => after,
            SumsNoBytesToNothing if bytes.is_empty() => 0,
            AddsTheBytes => bytes.iter().fold(sum, |sum, byte| sum.wrapping_add(u32::from(*byte))),
            _ => !after,
        }
    }
}

#[test]
fn every_fault_is_found() {
    for &fault in FAULTS {
        is_found(format_args!("{fault:?}"), &Faulty(fault), 60_000);
    }
}

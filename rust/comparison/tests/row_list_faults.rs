//! Libraries that list the rows of labels in one wrong way each: the comparison must find every one.

#[macro_use]
mod common;

use common::is_found;
use reference::entry::image_from_text;
use reference::image::Image;
use reference::row_list::row_list;
use reference::{as_the_reference, Answer, Library, Reference, Refusal};

faults! {
    // what is listed
    NumbersOneMoreAfterALabelWithNone,
    CountsRowsOfTheNextLabelToo,
    TellsWhereRowsOfNoneWouldStand,
    TellsTheFrame,
    TellsTheLastRow,
    TellsWhereRowsEnd,
    BeginsWithLabelTwo,
    LeavesOutTheLastLabel,
    ForgetsTheLastRow,
    // what is refused, and what is left
    AsksForRoomForFirstsAlone,
    AsksForRoomForCountsAlone,
    AsksForOneMore,
    WritesFirstsBeforeARefusal,
    WritesCountsBeforeARefusal,
    WritesPastTheLabels,
    LooksForRoomFirst,
    // what is counted
    CountsTheLastLabel,
    CountsRows,
}

/// The reference with one fault.
struct Faulty(Fault);

impl Faulty {
    /// The first and the number of rows that are listed for a label, by those that should be.
    fn listed(&self, image: &Image, label: usize, first: u16, count: u16) -> (u16, u16) {
        let own =
            |label: usize| image.rows.iter().filter(|row| usize::from(row.from) == label).count() as u16;
        let below = image.rows.iter().take_while(|row| usize::from(row.from) < label).count() as u16;
        let frames = (1 + image.entries.len() + image.labels.len()) as u16;
        match self.0 {
            NumbersOneMoreAfterALabelWithNone if count > 0 && own(label - 1) == 0 && label > 2 => {
                (first + 1, count)
            }
            CountsRowsOfTheNextLabelToo if count > 0 => (first, count + own(label + 1)),
            TellsWhereRowsOfNoneWouldStand if count == 0 => (below, 0),
            TellsTheFrame if count > 0 => (frames + first, count),
            TellsTheLastRow if count > 0 => (first + count - 1, count),
            TellsWhereRowsEnd => (first, first + count),
            ForgetsTheLastRow if usize::from(first + count) == image.rows.len() && count > 0 => {
                (first, count - 1)
            }
            _ => (first, count),
        }
    }

    fn list(&self, image: &Image) -> (Vec<u16>, Vec<u16>) {
        let (firsts, counts) = row_list(image);
        let pairs = firsts.iter().zip(&counts).enumerate();
        let mut listed: Vec<(u16, u16)> =
            pairs.map(|(label, (first, count))| self.listed(image, label, *first, *count)).collect();
        match self.0 {
            BeginsWithLabelTwo => listed.rotate_left(2),
            LeavesOutTheLastLabel => drop(listed.pop()),
            _ => {}
        }
        listed.into_iter().unzip()
    }

    /// Whether the buffers are too short.
    fn short(&self, labels: usize, firsts: usize, counts: usize) -> bool {
        match self.0 {
            AsksForRoomForFirstsAlone => firsts < labels,
            AsksForRoomForCountsAlone => counts < labels,
            AsksForOneMore => firsts.min(counts) <= labels,
            _ => firsts.min(counts) < labels,
        }
    }
}

/// Writes as much as there is room for.
fn write(all: &[u16], out: &mut [u16]) {
    let room = all.len().min(out.len());
    out[..room].copy_from_slice(&all[..room]);
}

impl Library for Faulty {
    as_the_reference!(
        chart_calls,
        check_image,
        cause,
        minimise,
        count_fillings,
        prepare,
        run_calls,
        check_table,
        sum,
        rebindings,
        spins,
        value_calls,
    );

    fn list_rows(&self, text: &[u8], firsts: &mut [u16], counts: &mut [u16]) -> Answer {
        if self.0 == LooksForRoomFirst && firsts.len().min(counts.len()) < 2 {
            return Err(Refusal::NoRoom);
        }
        let Ok(image) = image_from_text(text) else {
            return Reference.list_rows(text, firsts, counts);
        };
        let (all_firsts, all_counts) = self.list(&image);
        if self.short(image.labels.len(), firsts.len(), counts.len()) {
            match self.0 {
                WritesFirstsBeforeARefusal => write(&all_firsts, firsts),
                WritesCountsBeforeARefusal => write(&all_counts, counts),
                _ => {}
            }
            return Err(Refusal::NoRoom);
        }
        write(&all_firsts, firsts);
        write(&all_counts, counts);
        if let (WritesPastTheLabels, Some(past)) = (self.0, counts.get_mut(image.labels.len())) {
            *past = !*past;
        }
        Ok(match self.0 {
            CountsTheLastLabel => image.labels.len() - 1,
            CountsRows => image.rows.len(),
            _ => image.labels.len(),
        })
    }
}

#[test]
fn every_fault_is_found() {
    for &fault in FAULTS {
        is_found(format_args!("{fault:?}"), &Faulty(fault), 20_000);
    }
}

//! An image prepared for ticks: the bytes of its frames, each label's with a note of where its rows end.

use crate::answer::{refuse_if, refuse_lowest, Refusal};
use crate::frames::Frame;
use crate::image::{image_of, Image};
use interface::FRAME;

/// The frames of the table of an accepted image.
pub fn table_of(image: &Image) -> Vec<Frame> {
    let mut table = image.frames();
    let first_label = 1 + image.entries.len();
    for label in 0..image.labels.len() {
        let note = first_row_above(image, label) as u16;
        table[first_label + label][..2].copy_from_slice(&note.to_le_bytes());
    }
    table
}

/// The number of the first frame whose row leaves a higher label than this; the number of frames if there is none.
fn first_row_above(image: &Image, label: usize) -> usize {
    let before = image.rows.iter().take_while(|row| usize::from(row.from) <= label).count();
    1 + image.entries.len() + image.labels.len() + before
}

/// The image whose table these bytes are: refusals 11 to 13 of the frames with the notes taken back, then 13 where another note stands.
pub fn prepared(bytes: &[u8]) -> Result<Image, Refusal> {
    refuse_if(Refusal::BadHeader, bytes.is_empty() || !bytes.len().is_multiple_of(FRAME))?;
    let frames: Vec<Frame> = bytes.chunks(FRAME).map(|f| Frame::try_from(f).expect("ten bytes")).collect();
    let mut image = frames.clone();
    let labels = image.iter_mut().skip(1 + usize::from(frames[0][1])).take(1 + usize::from(frames[0][2]));
    for (number, label) in labels.enumerate() {
        label[..2].copy_from_slice(&[0x11, number as u8]);
    }
    let image = image_of(&image)?;
    let table = table_of(&image);
    refuse_lowest(Refusal::BadContent, frames.len(), |f| frames[f] != table[f])?;
    Ok(image)
}

/// Whether these frames are the table of some accepted image.
pub fn is_table(frames: &[Frame]) -> bool {
    prepared(&frames.concat()).is_ok()
}

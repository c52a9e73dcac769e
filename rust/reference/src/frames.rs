//! Frames as text: 22 hexadecimal digits, read in letters of either size and written in capitals, and a line feed, the last byte
//! making the sum 0. Refusals 1 to 3.

use crate::answer::{refuse_if, refuse_lowest, Refusal};
pub use interface::{CHART_TEXT, IMAGE_TEXT, LINE as CHARACTERS, RECORDS};

/// The ten bytes of a frame before its sum.
pub type Frame = [u8; 10];

const DIGITS: &[u8; 16] = b"0123456789ABCDEF";

/// The two digits of a byte.
pub fn digits(byte: u8) -> [u8; 2] {
    [DIGITS[usize::from(byte >> 4)], DIGITS[usize::from(byte & 15)]]
}

/// The last byte of a line: with it all eleven add up to a multiple of 256.
fn sum_byte(frame: &Frame) -> u8 {
    frame.iter().fold(0u8, |sum, b| sum.wrapping_add(*b)).wrapping_neg()
}

/// The line of one frame.
pub fn line(frame: &Frame) -> Vec<u8> {
    let mut line: Vec<u8> = frame.iter().flat_map(|b| digits(*b)).collect();
    line.extend(digits(sum_byte(frame)));
    line.push(b'\n');
    line
}

/// The lines of many frames.
pub fn text_of(frames: &[Frame]) -> Vec<u8> {
    frames.iter().flat_map(line).collect()
}

fn digit(character: u8) -> Option<u8> {
    match character {
        b'0'..=b'9' => Some(character - b'0'),
        b'A'..=b'F' => Some(character - b'A' + 10),
        b'a'..=b'f' => Some(character - b'a' + 10),
        _ => None,
    }
}

fn well_formed(line: &[u8]) -> bool {
    line[..22].iter().all(|c| digit(*c).is_some()) && line[22] == b'\n'
}

/// The eleven bytes of a line that is well formed.
fn bytes_of(line: &[u8]) -> [u8; 11] {
    std::array::from_fn(|k| {
        let (high, low) = (digit(line[2 * k]), digit(line[2 * k + 1]));
        16 * high.expect("a digit") + low.expect("a digit")
    })
}

/// The frames of a text of at most `longest` characters, or refusal 1, 2 or 3.
pub fn frames_of(text: &[u8], longest: usize) -> Result<Vec<Frame>, Refusal> {
    let length = text.len();
    refuse_if(Refusal::BadLength, length == 0 || !length.is_multiple_of(CHARACTERS) || length > longest)?;
    let lines: Vec<&[u8]> = text.chunks(CHARACTERS).collect();
    refuse_lowest(Refusal::BadCharacter, lines.len(), |f| !well_formed(lines[f]))?;
    let bytes: Vec<[u8; 11]> = lines.iter().map(|line| bytes_of(line)).collect();
    refuse_lowest(Refusal::BadSum, bytes.len(), |f| {
        bytes[f].iter().map(|b| u32::from(*b)).sum::<u32>() % 256 != 0
    })?;
    Ok(bytes.iter().map(|b| std::array::from_fn(|k| b[k])).collect())
}

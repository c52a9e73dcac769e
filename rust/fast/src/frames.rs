//! Text to frames and back by tables, in one pass each.

use reference::answer::Refusal;
use reference::frames::{Frame, CHARACTERS};

static DIGIT: [u8; 256] = digit_table();
static PAIR: [[u8; 2]; 256] = pair_table();

const fn digit_table() -> [u8; 256] {
    let mut table = [255; 256];
    let mut digit = 0;
    while digit < 16 {
        table[b"0123456789ABCDEF"[digit] as usize] = digit as u8;
        table[b"0123456789abcdef"[digit] as usize] = digit as u8;
        digit += 1;
    }
    table
}

const fn pair_table() -> [[u8; 2]; 256] {
    let mut table = [[0; 2]; 256];
    let digits = b"0123456789ABCDEF";
    let mut byte = 0;
    while byte < 256 {
        table[byte] = [digits[byte / 16], digits[byte % 16]];
        byte += 1;
    }
    table
}

/// Fills the frames of a text, or refusal 1, 2 or 3. A bad character ends the pass; a bad sum waits for its end.
pub fn decode<'a>(text: &[u8], longest: usize, frames: &'a mut [Frame]) -> Result<&'a [Frame], Refusal> {
    let (lines, rest) = text.as_chunks::<CHARACTERS>();
    if lines.is_empty() || !rest.is_empty() || text.len() > longest {
        return Err(Refusal::BadLength);
    }
    let mut bad_sum = None;
    for (index, (line, frame)) in lines.iter().zip(frames.iter_mut()).enumerate() {
        let mut seen = 0;
        let mut sum = 0u8;
        let mut byte = |k: usize| {
            let (high, low) = (DIGIT[usize::from(line[2 * k])], DIGIT[usize::from(line[2 * k + 1])]);
            seen |= high | low;
            let byte = high << 4 | low;
            sum = sum.wrapping_add(byte);
            byte
        };
        for (k, place) in frame.iter_mut().enumerate() {
            *place = byte(k);
        }
        byte(10);
        if seen > 15 || line[22] != b'\n' {
            return Err(Refusal::BadCharacter(index));
        }
        if sum != 0 && bad_sum.is_none() {
            bad_sum = Some(index);
        }
    }
    match bad_sum {
        Some(index) => Err(Refusal::BadSum(index)),
        None => Ok(&frames[..lines.len()]),
    }
}

/// Writes the lines of these frames; there is room for them.
pub fn encode(frames: &[Frame], out: &mut [u8]) {
    let (lines, _) = out.as_chunks_mut::<CHARACTERS>();
    for (frame, line) in frames.iter().zip(lines) {
        let mut sum = 0u8;
        for (k, byte) in frame.iter().enumerate() {
            sum = sum.wrapping_add(*byte);
            let [high, low] = PAIR[usize::from(*byte)];
            line[2 * k] = high;
            line[2 * k + 1] = low;
        }
        let [high, low] = PAIR[usize::from(sum.wrapping_neg())];
        line[20] = high;
        line[21] = low;
        line[22] = b'\n';
    }
}

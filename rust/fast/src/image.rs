//! The image check, refusals 11 to 13.

use reference::answer::Refusal;
use reference::frames::Frame;
use reference::image::ROWS;

/// Where the parts of an accepted image are, and its handler, 0 for none.
pub struct Parts {
    pub schemes: usize,
    pub labels: usize,
    pub handler: u8,
}

pub fn check(frames: &[Frame]) -> Result<Parts, Refusal> {
    let h = &frames[0];
    let rows = usize::from(u16::from_be_bytes([h[3], h[4]]));
    let parts = Parts { schemes: usize::from(h[1]), labels: usize::from(h[2]) + 1, handler: h[5] };
    let bytes_stand = h[0] == 0x0F && h[5] != 1 && h[5] <= h[1] && h[6] | h[7] | h[8] | h[9] == 0;
    let counts_stand = (1..=16).contains(&parts.schemes) && parts.labels > 1 && rows <= ROWS;
    if !bytes_stand || !counts_stand || frames.len() != 1 + parts.schemes + parts.labels + rows {
        return Err(Refusal::BadHeader);
    }
    let (entries, rest) = frames[1..].split_at(parts.schemes);
    let (labels, rows) = rest.split_at(parts.labels);
    places(entries, labels, rows)?;
    fields(entries, labels, rows)?;
    Ok(parts)
}

fn places(entries: &[Frame], labels: &[Frame], rows: &[Frame]) -> Result<(), Refusal> {
    for (k, frame) in entries.iter().enumerate() {
        if frame[0] != 0x10 || usize::from(frame[1]) != k + 1 {
            return Err(Refusal::StrayFrame(1 + k));
        }
    }
    for (k, frame) in labels.iter().enumerate() {
        if frame[0] != 0x11 || usize::from(frame[1]) != k {
            return Err(Refusal::StrayFrame(1 + entries.len() + k));
        }
    }
    let mut before = 0;
    for (k, frame) in rows.iter().enumerate() {
        if frame[0] != 0x12 || frame[1] < before {
            return Err(Refusal::StrayFrame(1 + entries.len() + labels.len() + k));
        }
        before = frame[1];
    }
    Ok(())
}

fn fields(entries: &[Frame], labels: &[Frame], rows: &[Frame]) -> Result<(), Refusal> {
    for (k, frame) in entries.iter().enumerate() {
        if !entry_stands(frame, labels) {
            return Err(Refusal::BadContent(1 + k));
        }
    }
    for (k, frame) in labels.iter().enumerate() {
        if !label_stands(frame, entries.len() as u8) {
            return Err(Refusal::BadContent(1 + entries.len() + k));
        }
    }
    for (k, frame) in rows.iter().enumerate() {
        if !row_stands(frame, labels) {
            return Err(Refusal::BadContent(1 + entries.len() + labels.len() + k));
        }
    }
    Ok(())
}

fn entry_stands(f: &Frame, labels: &[Frame]) -> bool {
    let Some(label) = labels.get(usize::from(f[2])) else {
        return false;
    };
    let owned = f[2] == u8::from(f[1] != 1) || label[4] == f[1];
    owned && f[3] | f[4] | f[5] | f[6] | f[7] | f[8] | f[9] == 0
}

fn label_stands(f: &Frame, schemes: u8) -> bool {
    let within = |low: u8, number: u8| low <= number && number <= schemes;
    match f[1] {
        0 => *f == [0x11, 0, 4, 0, 1, 0, 0, 0, 0, 0],
        1 => *f == [0x11, 1, 3, 0, 0, 0, 0, 0, 0, 0],
        _ => {
            let called = match f[2] {
                0 => f[3] == 0,
                1 | 2 => within(2, f[3]),
                _ => false,
            };
            called && within(1, f[4]) && f[5] <= 2
        }
    }
}

fn row_stands(f: &Frame, labels: &[Frame]) -> bool {
    let (Some(from), Some(next)) = (labels.get(usize::from(f[1])), labels.get(usize::from(f[7]))) else {
        return false;
    };
    let owner = from[4];
    f[1] >= 2
        && f[4] & !f[2] == 0
        && f[5] & !f[3] == 0
        && (f[6] == 2 || f[6] < 2 && from[2] == 2)
        && (next[4] == owner || f[7] == u8::from(owner != 1))
        && f[8] | f[9] == 0
}

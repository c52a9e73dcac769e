//! How many places a chart needs, by the sets of schemes that stand at each depth.

use reference::answer::Refusal;
use reference::frames::Frame;

const SCHEMES: usize = 16;

/// The least depth at which no scheme calls; a chain of more schemes than there are has one twice: refusal 20.
pub fn needed(records: &[Frame]) -> Result<usize, Refusal> {
    let mut calls = [0u32; SCHEMES + 1];
    for record in records.iter().filter(|record| matches!(record[0], 2 | 4) && record[2] != 0) {
        calls[usize::from(record[1])] |= 1 << record[2];
    }
    let mut standing = 1u32 << 1;
    for depth in 1..=SCHEMES {
        let callers = (1..=SCHEMES).filter(|scheme| standing >> scheme & 1 == 1);
        standing = callers.fold(0, |all, scheme| all | calls[scheme]);
        if standing == 0 {
            return Ok(depth);
        }
    }
    Err(Refusal::CallsItself)
}

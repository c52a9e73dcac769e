//! Little charts in the order of their texts: frame by frame, with each kind, arc and mask in turn, as long as a chart can still come of
//! it, until as many were met as the number says.

use super::chart::{BEGIN, CONDITION, END, OPERATION};
use interface::LITTLE_FRAMES;
use reference::answer::Refusal;
use reference::frames::Frame;

/// How many there are of 2, 3 and 4 frames.
const COUNTS: [usize; 3] = [2, 18, 648];

/// The frames up to a place, and for each a bit for each node that it leads to.
struct Search {
    frames: usize,
    left: usize,
    records: [Frame; LITTLE_FRAMES],
    arcs: [u8; LITTLE_FRAMES],
}

/// Where the Begin and the End are, so far, and which nodes are conditions, a bit each.
#[derive(Clone, Copy, Default)]
struct Kinds {
    begin: u8,
    end: u8,
    conditions: u8,
}

impl Search {
    /// Tries each frame at this place that does not lead to the Begin or to itself without a tick; true when the chart is found.
    fn search(&mut self, at: usize, kinds: Kinds) -> bool {
        if at == self.frames {
            return self.meets(&kinds);
        }
        let own = 1 << at;
        let missing = usize::from(kinds.begin == 0) + usize::from(kinds.end == 0);
        let more = self.frames - at > missing;
        let goes = |barred: u8, next: &u8| barred >> *next & 1 == 0;
        let nodes = 0..self.frames as u8;
        if kinds.begin == 0 {
            let kinds = Kinds { begin: own, ..kinds };
            // no frame before this one may lead here
            let open = self.arcs[..at].iter().all(|arcs| arcs & own == 0);
            for next in nodes.clone().filter(|next| open && goes(own, next)) {
                if self.put(at, [BEGIN, 1, 0, next, 0, 0, 0, 0, 0, 0], 1 << next, kinds) {
                    return true;
                }
            }
        }
        if kinds.end == 0 && self.put(at, [END, 1, 0, 0, 0, 0, 0, 0, 0, 0], 0, Kinds { end: own, ..kinds }) {
            return true;
        }
        for next in nodes.clone().filter(|next| more && goes(kinds.begin, next)) {
            for mask in 0..2 {
                if self.put(at, [OPERATION, 1, 0, next, 0, 0, 0, 0, 0, mask], 1 << next, kinds) {
                    return true;
                }
            }
        }
        let kinds = Kinds { conditions: kinds.conditions | own, ..kinds };
        let barred = kinds.begin | own;
        for next in nodes.clone().filter(|next| more && goes(barred, next)) {
            for other in nodes.clone().filter(|next| goes(barred, next)) {
                if self.put(at, [CONDITION, 1, 0, next, other, 0, 0, 0, 0, 0], 1 << next | 1 << other, kinds)
                {
                    return true;
                }
            }
        }
        false
    }

    fn put(&mut self, at: usize, record: Frame, arcs: u8, kinds: Kinds) -> bool {
        (self.records[at], self.arcs[at]) = (record, arcs);
        self.search(at + 1, kinds)
    }

    /// Whether the chart is accepted and the one that is looked for.
    fn meets(&mut self, kinds: &Kinds) -> bool {
        if !self.is_joined(kinds.begin) || self.has_circle(kinds.conditions) {
            return false;
        }
        self.left -= 1;
        self.left == 0
    }

    fn is_joined(&self, begin: u8) -> bool {
        let all = (1u8 << self.frames) - 1;
        let mut joined = begin;
        loop {
            let mut more = joined;
            for (at, arcs) in self.arcs[..self.frames].iter().enumerate() {
                if joined >> at & 1 == 1 {
                    more |= arcs;
                }
            }
            if more == joined {
                return joined == all;
            }
            joined = more;
        }
    }

    /// Takes away conditions that lead to none of those left; what cannot be taken away leads to a circle.
    fn has_circle(&self, conditions: u8) -> bool {
        let mut left = conditions;
        loop {
            let mut fewer = left;
            for (at, arcs) in self.arcs[..self.frames].iter().enumerate() {
                if arcs & left == 0 {
                    fewer &= !(1 << at);
                }
            }
            if fewer == left {
                return left != 0;
            }
            left = fewer;
        }
    }
}

/// The frames of a little chart, or refusal 24.
pub fn fill(frames: usize, number: usize) -> Result<[Frame; LITTLE_FRAMES], Refusal> {
    let count = frames.checked_sub(2).and_then(|at| COUNTS.get(at));
    if count.is_none_or(|count| number >= *count) {
        return Err(Refusal::NoLittleChart);
    }
    let mut search =
        Search { frames, left: number + 1, records: [[0; 10]; LITTLE_FRAMES], arcs: [0; LITTLE_FRAMES] };
    assert!(search.search(0, Kinds::default()), "there are as many");
    Ok(search.records)
}

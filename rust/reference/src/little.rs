//! All the little charts: each list of nodes of the form that paper 02 gives is tried, and those that the chart reader accepts are sorted
//! by their texts.

use std::sync::OnceLock;

use crate::check::chart_of;
use crate::frames::{text_of, Frame};
use interface::LITTLE_FRAMES;

/// The nodes of the form, with arcs to the nodes of a chart of so many frames.
pub fn nodes(frames: usize) -> Vec<Frame> {
    let mut all = vec![[1, 1, 0, 0, 0, 0, 0, 0, 0, 0]];
    for next in 0..frames as u8 {
        all.push([0, 1, 0, next, 0, 0, 0, 0, 0, 0]);
        all.extend([0, 1].map(|mask| [2, 1, 0, next, 0, 0, 0, 0, 0, mask]));
        all.extend((0..frames as u8).map(|other| [3, 1, 0, next, other, 0, 0, 0, 0, 0]));
    }
    all
}

/// The charts of so many of these nodes that are accepted, in no order.
pub fn charts(frames: usize, nodes: &[Frame], accepted: impl Fn(&[Frame]) -> bool) -> Vec<Vec<Frame>> {
    let lists = (0..nodes.len().pow(frames as u32)).map(|mut list| {
        let node = |_| {
            let node = nodes[list % nodes.len()];
            list /= nodes.len();
            node
        };
        (0..frames).map(node).collect::<Vec<Frame>>()
    });
    lists.filter(|records| accepted(records)).collect()
}

/// The texts of the little charts of so many frames, in their order; none but of 2 to 4 frames.
pub fn texts(frames: usize) -> &'static [Vec<u8>] {
    static TEXTS: [OnceLock<Vec<Vec<u8>>>; LITTLE_FRAMES + 1] =
        [const { OnceLock::new() }; LITTLE_FRAMES + 1];
    if !(2..=LITTLE_FRAMES).contains(&frames) {
        return &[];
    }
    TEXTS[frames].get_or_init(|| {
        let accepted = charts(frames, &nodes(frames), |records| chart_of(records).is_ok());
        let mut texts: Vec<Vec<u8>> = accepted.iter().map(|records| text_of(records)).collect();
        texts.sort();
        texts
    })
}

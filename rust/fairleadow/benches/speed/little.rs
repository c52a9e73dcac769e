//! Little charts fetched: the first and the last of each frame count, one in between, and a number past the last; the C function and plain
//! Rust.

use std::hint::black_box;

use fast::Fast;
use proved::{c, LITTLE_TEXT};
use reference::Library;

use crate::measure::{keep, Call, Line};

const CHARTS: [(usize, usize); 8] = [(2, 0), (2, 1), (3, 0), (3, 17), (4, 0), (4, 323), (4, 647), (4, 648)];

fn sides((frames, number): (usize, usize)) -> Vec<Call> {
    let (mut text, mut other) = ([0; LITTLE_TEXT], [0; LITTLE_TEXT]);
    let (mut index, mut count) = (0, 0);
    vec![
        Box::new(move || {
            let (frames, number) = black_box((frames as u64, number as u64));
            // SAFETY: all that the call is handed lives here and is lent to it alone.
            black_box(unsafe {
                c::fairleadow_little_chart(
                    frames,
                    number,
                    text.as_mut_ptr(),
                    text.len() as u64,
                    &mut index,
                    &mut count,
                )
            });
        }),
        Box::new(move || {
            let (frames, number) = black_box((frames, number));
            keep(Fast.little_chart(frames, number, &mut other));
        }),
    ]
}

pub fn lines() -> Vec<Line> {
    let line = |chart: (usize, usize)| Line {
        name: format!("{} frames, number {} | little chart", chart.0, chart.1),
        sides: sides(chart),
    };
    CHARTS.into_iter().map(line).collect()
}

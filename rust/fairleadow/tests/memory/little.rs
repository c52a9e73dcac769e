//! Little charts.

use comparison::entry_point::EntryPoint;
use comparison::samples::worst::candidates;
use proved::{c, LITTLE_TEXT};
use reference::frames::{CHART_TEXT, IMAGE_TEXT};

use super::stack::depth;
use super::MEMORY;

struct Fetch {
    frames: u64,
    chart: u64,
    text: [u8; LITTLE_TEXT],
    number: u8,
}

extern "C" fn little_chart(job: &mut Fetch) {
    let (mut index, mut count) = (0, 0);
    let (frames, chart, text) = (job.frames, job.chart, &mut job.text);
    // SAFETY: all that the call is handed lives here and is lent to it alone.
    job.number = unsafe {
        c::fairleadow_little_chart(
            frames,
            chart,
            text.as_mut_ptr(),
            text.len() as u64,
            &mut index,
            &mut count,
        )
    } as u8;
}

/// Every little chart, and those that there are not.
#[test]
fn a_little_chart_fits_beside_both_texts() {
    let (mut deepest, mut answered) = (0, [0; 2]);
    for candidate in candidates(EntryPoint::LittleChart) {
        let (frames, chart) = (candidate.input.value, candidate.input.chart);
        let mut job = Fetch { frames: frames as u64, chart: chart as u64, text: [0; LITTLE_TEXT], number: 0 };
        deepest = deepest.max(depth(&mut job, little_chart));
        answered[usize::from(job.number == 24)] += 1;
    }
    println!("little chart: {deepest} bytes of stack");
    assert_eq!(answered, [669, 5]);
    assert!(CHART_TEXT + IMAGE_TEXT + deepest < MEMORY, "a little chart takes {deepest} bytes of stack");
}

//! Dry runs.

use proved::c;
use reference::frames::{text_of, CHART_TEXT, IMAGE_TEXT};

use super::stack::depth;
use super::{worst_charts, MEMORY, WORDS};

struct DryRun {
    chart: Vec<u8>,
    image: Vec<u8>,
    words: Vec<u16>,
    masks: Vec<u32>,
    codes: Vec<u8>,
    number: u8,
}

extern "C" fn dry_run(job: &mut DryRun) {
    let (mut index, mut count) = (0, 0);
    // SAFETY: all that the call is handed lives here and is lent to it alone.
    job.number = unsafe {
        c::fairleadow_dry_run(
            job.chart.as_ptr(),
            job.chart.len() as u64,
            32,
            job.image.as_mut_ptr(),
            job.image.len() as u64,
            job.words.as_ptr(),
            job.words.len() as u64,
            job.masks.as_mut_ptr(),
            job.masks.len() as u64,
            job.codes.as_mut_ptr(),
            job.codes.len() as u64,
            &mut index,
            &mut count,
        )
    } as u8;
}

#[test]
fn a_dry_run_fits_beside_both_texts() {
    let (mut deepest, mut ran) = (0, 0);
    for records in worst_charts() {
        let mut job = DryRun {
            chart: text_of(&records),
            image: vec![0; IMAGE_TEXT],
            words: (0..WORDS as u16).map(|k| k.wrapping_mul(40_503)).collect(),
            masks: vec![0; WORDS],
            codes: vec![0; WORDS],
            number: 0,
        };
        deepest = deepest.max(depth(&mut job, dry_run));
        assert!(matches!(job.number, 0 | 8 | 9 | 10 | 17));
        ran += usize::from(matches!(job.number, 0 | 17));
    }
    println!("dry run: {deepest} bytes of stack");
    assert!(ran > 300, "{ran}");
    assert!(CHART_TEXT + IMAGE_TEXT + deepest < MEMORY, "a dry run takes {deepest} bytes of stack");
}

//! Counts of how often the stack fills.

use comparison::entry_point::EntryPoint;
use comparison::samples::worst::candidates;
use proved::{c, PLACES};
use reference::frames::{text_of, CHART_TEXT, IMAGE_TEXT};

use super::stack::depth;
use super::MEMORY;

struct Count {
    image: Vec<u8>,
    lists: (u64, u64),
    counts: [u32; 3],
    number: u8,
}

extern "C" fn count(job: &mut Count) {
    let (mut index, mut made) = (0, 0);
    let ((ticks, conditions), [ended, full, unmatched]) = (job.lists, &mut job.counts);
    // SAFETY: all that the call is handed lives here and is lent to it alone.
    job.number = unsafe {
        c::fairleadow_count_fillings(
            job.image.as_ptr(),
            job.image.len() as u64,
            PLACES as u64,
            ticks,
            conditions,
            ended,
            full,
            unmatched,
            &mut index,
            &mut made,
        )
    } as u8;
}

/// Images of all sizes, with many short lists and with few long ones.
#[test]
fn a_count_of_fillings_fits_beside_both_texts() {
    let (mut deepest, mut made) = (0, 0);
    for candidate in candidates(EntryPoint::CountFillings) {
        for lists in [(4, 2), (16, 1), (1, 10), (2_000, 0)] {
            let image = text_of(&candidate.input.frames);
            let mut job = Count { image, lists, counts: [0; 3], number: 0 };
            deepest = deepest.max(depth(&mut job, count));
            made += usize::from(job.number == 0);
        }
    }
    println!("count of fillings: {deepest} bytes of stack");
    assert!(made > 40, "{made} were made");
    assert!(CHART_TEXT + IMAGE_TEXT + deepest < MEMORY, "a count takes {deepest} bytes of stack");
}

//! The deepest stack use of the ticks of spindles.

use proved::{c, SPINDLES, TABLE};
use reference::frames::{CHART_TEXT, IMAGE_TEXT};

use super::{depth, fresh, worst_images, worst_tables, MEMORY};

/// A head whose first spindle ticks by word 0.
struct Spinning {
    ground: Vec<u8>,
    states: [c::State; SPINDLES],
    taken: u64,
    code: u8,
    number: u8,
}

macro_rules! spin_job {
    ($name:ident, $function:path) => {
        extern "C" fn $name(job: &mut Spinning) {
            let (mut mask, mut index, mut count) = (0, 0, 0);
            // SAFETY: all that the call is handed lives here and is lent to it alone.
            job.number = unsafe {
                $function(
                    job.states.as_mut_ptr(),
                    SPINDLES as u64,
                    &mut job.taken,
                    0,
                    job.ground.as_ptr(),
                    job.ground.len() as u64,
                    0,
                    &mut mask,
                    &mut job.code,
                    &mut index,
                    &mut count,
                )
            } as u8;
        }
    };
}

spin_job!(spin, c::fairleadow_spin);
spin_job!(live_spin, c::fairleadow_live_spin);

/// The deepest tick of a spindle over these grounds, from a fresh state on, with all places taken and without; some are drops.
fn deepest_spin(grounds: &[Vec<u8>], spin: extern "C" fn(&mut Spinning)) -> usize {
    let (mut deepest, mut answered, mut drops) = (0, [false; 2], false);
    for (ground, full) in grounds.iter().flat_map(|ground| [(ground, false), (ground, true)]) {
        let mut states = [fresh(8); SPINDLES];
        states[1].depth = if full { 61 } else { 1 };
        let taken = states.iter().map(|state| u64::from(state.depth)).sum();
        let mut job = Spinning { ground: ground.clone(), states, taken, code: 0, number: 0 };
        for _ in 0..12 {
            deepest = deepest.max(depth(&mut job, spin));
            assert!(matches!(job.number, 0 | 17 | 26));
            answered[usize::from(job.number == 26)] = true;
            drops |= job.code == 0x60;
        }
    }
    assert!(answered == [true; 2] && drops);
    deepest
}

#[test]
fn a_tick_of_a_spindle_fits_beside_both_texts() {
    let deepest = deepest_spin(&worst_images(), spin);
    println!("spin: {deepest} bytes of stack");
    let states = size_of::<[c::State; SPINDLES]>();
    assert!(CHART_TEXT + IMAGE_TEXT + states + deepest < MEMORY, "spin takes {deepest} bytes of stack");
}

/// Four tables lie in memory.
#[test]
fn a_live_tick_of_a_spindle_fits_beside_four_tables() {
    let deepest = deepest_spin(&worst_tables(), live_spin);
    println!("live spin: {deepest} bytes of stack");
    let head = SPINDLES * (TABLE + size_of::<c::State>());
    assert!(head + deepest < MEMORY, "live spin takes {deepest} bytes of stack");
}

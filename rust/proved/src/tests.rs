//! A call that tells what no answer is, or leaves what its answer does not, ends the program: no comparison takes it for another answer.

use std::panic::{catch_unwind, UnwindSafe};

use super::*;

/// A tick that tells this number and this count, and writes its mask and its code, or not.
unsafe extern "C" fn tick<const NUMBER: u32, const COUNT: u64, const WRITES: bool>(
    _: *const u8,
    _: u64,
    _: *mut c::State,
    _: u16,
    mask: *mut u32,
    code: *mut u8,
    index: *mut u64,
    count: *mut u64,
) -> u32 {
    // SAFETY: each is a place that is lent for the call.
    unsafe {
        (*index, *count) = (0, COUNT);
        if WRITES {
            (*mask, *code) = (1, 0x12);
        }
    }
    NUMBER
}

/// The same of a spindle.
unsafe extern "C" fn spin<const NUMBER: u32, const COUNT: u64, const WRITES: bool>(
    _: *mut c::State,
    _: u64,
    _: *mut u64,
    _: u64,
    image: *const u8,
    image_len: u64,
    word: u16,
    mask: *mut u32,
    code: *mut u8,
    index: *mut u64,
    count: *mut u64,
) -> u32 {
    let mut state = c::State::NONE;
    // SAFETY: it reads and writes no more than is lent to this call.
    unsafe { tick::<NUMBER, COUNT, WRITES>(image, image_len, &mut state, word, mask, code, index, count) }
}

fn by_tick(call: c::Tick) -> Result<Tick, Refusal> {
    ticked(call, &[], &mut State::NONE.clone(), 0)
}

fn by_spin(call: c::Spin) -> Result<Tick, Refusal> {
    spun(call, &mut [State::NONE; SPINDLES], &mut 4, 0, &[], 0)
}

/// The answer of a call that tells these.
fn by_number(number: u32, index: u64, count: u64) -> Answer {
    answered(|at, made| {
        // SAFETY: both are places of the wrapper.
        unsafe { (*at, *made) = (index, count) };
        number
    })
}

fn is_seen<T>(call: impl FnOnce() -> T + UnwindSafe, told: &str) {
    assert!(catch_unwind(call).is_err(), "{told}");
}

#[test]
fn an_answer_is_what_is_told() {
    let made = Ok(Tick { mask: 1, code: 0x12 });
    assert_eq!([by_tick(tick::<0, 1, true>), by_spin(spin::<0, 1, true>)], [made; 2]);
    assert_eq!(by_tick(tick::<17, 0, false>), Err(Refusal::Full { ticks: 0 }));
    assert_eq!(by_spin(spin::<26, 0, false>), Err(Refusal::NoPlace));
    // of what is returned the low eight bits tell the number
    assert_eq!(by_tick(tick::<0xABCD_EF12, 0, false>), Err(Refusal::NoRow { ticks: 0 }));
    assert_eq!(by_number(0xABCD_EF00, 0, 7), Ok(7));
    assert_eq!(by_number(3, 4, 0), Err(Refusal::BadSum(4)));
    assert_eq!(by_number(18, 0, 7), Err(Refusal::NoRow { ticks: 7 }));
}

#[test]
fn a_refused_tick_that_writes_is_seen() {
    is_seen(|| by_tick(tick::<17, 0, true>), "a tick");
    is_seen(|| by_spin(spin::<26, 0, true>), "a spindle's");
}

#[test]
fn a_tick_that_counts_something_else_is_seen() {
    is_seen(|| by_tick(tick::<0, 0, true>), "a tick");
    is_seen(|| by_tick(tick::<0, 2, true>), "two ticks");
    is_seen(|| by_spin(spin::<0, 0, true>), "a spindle's");
}

/// A number without a refusal, an index or a count that a refusal does not have, as of marks, circles of calls, labels, little charts and
/// lists, and what is left unwritten.
#[test]
fn what_no_answer_is_is_seen() {
    for (number, index, count) in [
        (0, 1, 7),
        (1, 0, 1),
        (3, 4, 1),
        (16, 0, 3),
        (17, 2, 3),
        (19, 3, 0),
        (20, 1, 0),
        (20, 0, 16),
        (23, 5, 0),
        (24, 18, 0),
        (28, 17, 0),
        (29, 0, 0),
        (255, 0, 0),
        (0, u64::MAX, 7),
        (5, u64::MAX, u64::MAX),
    ] {
        is_seen(|| by_number(number, index, count), &format!("{number}, {index}, {count}"));
    }
}

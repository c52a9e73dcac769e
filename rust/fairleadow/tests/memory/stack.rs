//! How deep a call writes to a stack of its own.

use std::arch::asm;
use std::ffi::c_void;

const STACK: usize = 1 << 20;
const FILL: u8 = 0xA5;

/// Runs a job on a filled stack and returns how many bytes of it were written to, from the top down.
pub fn depth<T>(job: &mut T, run: extern "C" fn(&mut T)) -> usize {
    let mut stack = vec![FILL; STACK];
    let top = (stack.as_mut_ptr() as usize + STACK) & !63;
    // SAFETY: the job runs to its end on the filled memory, which nothing else uses; then the old stack is back.
    unsafe {
        asm!(
            "mov r12, rsp",
            "mov rsp, {top}",
            "call {run}",
            "mov rsp, r12",
            top = in(reg) top,
            run = in(reg) run as *const c_void,
            in("rdi") std::ptr::from_mut(job),
            out("r12") _,
            clobber_abi("C"),
        );
    }
    let untouched = std::hint::black_box(&stack).iter().take_while(|byte| **byte == FILL).count();
    top - stack.as_ptr() as usize - untouched
}

/// Writes to 10,000 bytes of its stack.
extern "C" fn write_ten_thousand(job: &mut u8) {
    let mut held = [0u8; 10_000];
    std::hint::black_box(&mut held).fill(*job);
    *job = held[5_000];
}

#[test]
fn the_depth_of_a_known_call_is_measured() {
    let depth = depth(&mut 7, write_ten_thousand);
    assert!((10_000..11_000).contains(&depth), "{depth}");
}

//! Whether standard output was closed, or open for reading only, when the program was started. Rust opens the null device in place of
//! a closed one before `main`, and holds what one for reading refuses for written, so that nothing fails there; what is to be told
//! must be seen before that.

use std::ffi::{c_char, c_int};
use std::sync::atomic::{AtomicBool, Ordering};

static CLOSED: AtomicBool = AtomicBool::new(false);

/// Started by the C library before Rust's own beginning.
#[used]
// SAFETY: the C library calls what stands there with these parameters.
#[unsafe(link_section = ".init_array")]
static LOOK: extern "C" fn(c_int, *const *const c_char, *const *const c_char) = look;

/// By their names in C: F_GETFL, O_ACCMODE and O_RDONLY.
const GET_FLAGS: c_int = 3;
const ACCESS: c_int = 3;
const READ_ONLY: c_int = 0;

unsafe extern "C" {
    fn fcntl(file: c_int, command: c_int, ...) -> c_int;
}

extern "C" fn look(_: c_int, _: *const *const c_char, _: *const *const c_char) {
    // SAFETY: F_GETFL takes no third argument, reads the flags of file 1 and changes nothing.
    let flags = unsafe { fcntl(1, GET_FLAGS) };
    CLOSED.store(flags == -1 || flags & ACCESS == READ_ONLY, Ordering::Relaxed);
}

/// Whether it was closed, or open for reading only.
pub fn standard_output() -> bool {
    CLOSED.load(Ordering::Relaxed)
}

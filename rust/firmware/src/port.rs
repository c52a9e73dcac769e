//! What the program needs of its board, as controller/firmware/port.h declares it, and the image that lies in its flash.

use core::ffi::{c_char, c_int};
use core::fmt;

/// How long the outputs may stay as they are while no word comes, in milliseconds; as in port.h.
pub const WAIT: u32 = 3000;

// SAFETY: these are the functions of port.h and the ends of image.S.
unsafe extern "C" {
    pub safe fn port_open();
    pub safe fn port_set_outputs(mask: u32);
    pub safe fn port_stay() -> !;
    fn port_next(word: *mut u16, number: *mut u8, scheme: *mut u8) -> c_int;
    fn port_tell(text: *const c_char);
    static image_start: u8;
    static image_end: u8;
}

/// What comes next.
pub enum Came {
    Word(u16),
    /// A number that the operator gives to a scheme to serve.
    Swap {
        number: u8,
        scheme: u8,
    },
    /// No word came in time.
    Late,
    Nothing,
}

/// Waits for it.
pub fn next() -> Came {
    let (mut word, mut number, mut scheme) = (0, 0, 0);
    // SAFETY: the three are places of this function.
    match unsafe { port_next(&mut word, &mut number, &mut scheme) } {
        1 => Came::Word(word),
        2 => Came::Swap { number, scheme },
        3 => Came::Late,
        _ => Came::Nothing,
    }
}

/// The image's lines.
pub fn image() -> &'static [u8] {
    let (start, end) = (&raw const image_start, &raw const image_end);
    // SAFETY: the bytes between both are the image, which nothing writes.
    unsafe { core::slice::from_raw_parts(start, end.addr() - start.addr()) }
}

/// The operator, who reads what is told.
pub struct Operator;

impl fmt::Write for Operator {
    fn write_str(&mut self, text: &str) -> fmt::Result {
        for byte in text.bytes() {
            let ended = [byte, 0];
            // SAFETY: a text of C, which ends in a 0.
            unsafe { port_tell(ended.as_ptr().cast()) };
        }
        Ok(())
    }
}

/// Tells the operator, who takes every text.
macro_rules! tell {
    ($($words:tt)*) => {
        let _ = core::fmt::Write::write_fmt(&mut $crate::port::Operator, format_args!($($words)*));
    };
}
pub(crate) use tell;

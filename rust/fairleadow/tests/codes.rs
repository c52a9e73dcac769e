//! What every code stands for, in the proved library and in the reference.

use proved::{c, Library, Meaning, Proved};
use reference::Reference;

#[test]
fn all_256_codes_have_the_meaning_that_the_reference_gives() {
    for code in 0..=255 {
        assert_eq!(Proved.meaning(code), Reference.meaning(code), "code {code:02X}");
    }
}

/// The tick kind as an image has it, 5 for a drop, 255 for none, and the scheme called, 0 for none.
fn numbers(meaning: Meaning) -> (u8, u8) {
    match meaning {
        Meaning::Plain => (0, 0),
        Meaning::OperationCall(scheme) => (1, scheme),
        Meaning::FunctionCall(scheme) => (2, scheme),
        Meaning::Return => (3, 0),
        Meaning::Home => (4, 0),
        Meaning::Drop => (5, 0),
        Meaning::Unknown => (255, 0),
    }
}

#[test]
fn c_is_told_the_kind_and_the_scheme_called() {
    for code in 0..=255 {
        let mut called = 77;
        // SAFETY: all that the call is handed lives here and is lent to it alone.
        let kind = unsafe { c::fairleadow_meaning(code, &mut called) } as u8;
        assert_eq!((kind, called), numbers(Reference.meaning(code)), "code {code:02X}");
    }
}

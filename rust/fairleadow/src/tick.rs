use crate::c;

#[doc(inline)]
pub use interface::Meaning;

/// What a tick hands out: the outputs and the code.
///
/// ```
/// use fairleadow::{Meaning, Tick};
///
/// let tick = Tick { mask: 0x0000_0005, code: 0x12 };
/// assert!(tick.is_on(0) && !tick.is_on(1) && tick.is_on(2));
/// assert_eq!(tick.meaning(), Meaning::OperationCall(2));
/// ```
#[derive(Clone, Copy, Debug, Default, PartialEq, Eq, Hash)]
#[must_use = "a tick's mask is for the outputs"]
pub struct Tick {
    /// The outputs: bit i is micro operation i.
    pub mask: u32,
    /// What the tick was: 0x00 plain, 0x03 a return, 0x04 home, 0x10 + h an operation's call of number h, 0x40 + h a function's, 0x60 a
    /// drop.
    pub code: u8,
}

impl Tick {
    /// Whether a micro operation, 0 to 31, is on; there are no others.
    ///
    /// ```
    /// use fairleadow::Tick;
    ///
    /// let tick = Tick { mask: 0x8000_0000, code: 0 };
    /// assert!(tick.is_on(31) && !tick.is_on(0) && !tick.is_on(32));
    /// ```
    #[must_use]
    pub fn is_on(self, operation: u32) -> bool {
        self.mask.checked_shr(operation).is_some_and(|low| low & 1 == 1)
    }

    /// What its code stands for.
    ///
    /// ```
    /// use fairleadow::{Meaning, Tick};
    ///
    /// assert_eq!(Tick { mask: 0, code: 0x04 }.meaning(), Meaning::Home);
    /// ```
    #[must_use]
    pub fn meaning(self) -> Meaning {
        meaning(self.code)
    }
}

/// What a tick's code stands for, of all 256; [`Meaning::Unknown`] for a code that no tick of an accepted image has.
///
/// ```
/// use fairleadow::{meaning, Meaning};
///
/// assert_eq!(meaning(0x42), Meaning::FunctionCall(2));
/// assert_eq!(meaning(0x60), Meaning::Drop);
/// assert_eq!(meaning(0xFF), Meaning::Unknown);
/// ```
#[must_use]
pub fn meaning(code: u8) -> Meaning {
    let mut called = 0;
    // SAFETY: the number called is a place of this function, which the call writes.
    match unsafe { c::fairleadow_meaning(code, &mut called) } as u8 {
        0 => Meaning::Plain,
        1 => Meaning::OperationCall(called),
        2 => Meaning::FunctionCall(called),
        3 => Meaning::Return,
        4 => Meaning::Home,
        5 => Meaning::Drop,
        _ => Meaning::Unknown,
    }
}

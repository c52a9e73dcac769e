use crate::call::answered;
use crate::{c, Refusal, PLACES, SCHEMES};

/// The bytes of a state.
pub const STATE_BYTES: usize = 130;

/// The machine's state: which schemes are open and where each goes on, the result bits, and which scheme serves each number. It is bytes
/// alone, which may be stored and brought back.
///
/// ```
/// use fairleadow::State;
///
/// let state = State::fresh(3)?;
/// assert_eq!((state.size(), state.depth(), state.serving(2)), (3, 1, Some(2)));
/// # Ok::<(), fairleadow::Refusal>(())
/// ```
#[derive(Clone, Copy, Debug, PartialEq, Eq)]
#[repr(transparent)]
pub struct State(pub(crate) c::State);

const _: () = assert!(size_of::<State>() == STATE_BYTES && align_of::<State>() == 1);

impl State {
    /// A fresh state for a stack of so many places, 1 to 32: scheme 1 is open, and each number is served by its own scheme. Tries 14.
    ///
    /// ```
    /// use fairleadow::{Refusal, State};
    ///
    /// assert_eq!(State::fresh(32)?.depth(), 1);
    /// assert_eq!(State::fresh(33), Err(Refusal::BadSize));
    /// # Ok::<(), Refusal>(())
    /// ```
    pub fn fresh(places: usize) -> Result<State, Refusal> {
        let mut state = c::State::NONE;
        // SAFETY: the state is a place of this function, which the call writes.
        answered(|index, count| unsafe { c::fairleadow_fresh(places as u64, &mut state, index, count) })?;
        Ok(State(state))
    }

    /// The state of these bytes. Whether it fits an image is tried by each call that takes one, with [`Refusal::Unfit`].
    ///
    /// ```
    /// use fairleadow::State;
    ///
    /// let state = State::fresh(3)?;
    /// assert_eq!(State::from_bytes(state.to_bytes()), state);
    /// # Ok::<(), fairleadow::Refusal>(())
    /// ```
    #[must_use]
    pub fn from_bytes(bytes: [u8; STATE_BYTES]) -> State {
        // SAFETY: a state is so many bytes without one between them, and any bytes are one.
        unsafe { core::mem::transmute::<[u8; STATE_BYTES], State>(bytes) }
    }

    /// Its bytes, to be stored.
    ///
    /// ```
    /// use fairleadow::State;
    ///
    /// let bytes = State::fresh(3)?.to_bytes();
    /// assert_eq!(bytes[..3], [3, 1, 0]);
    /// # Ok::<(), fairleadow::Refusal>(())
    /// ```
    #[must_use]
    pub fn to_bytes(self) -> [u8; STATE_BYTES] {
        *self.as_bytes()
    }

    /// Its bytes where it lies, for a sum over them.
    ///
    /// ```
    /// use fairleadow::{sum, State};
    ///
    /// let state = State::fresh(3)?;
    /// assert_eq!(sum(0, state.as_bytes()), sum(0, &state.to_bytes()));
    /// # Ok::<(), fairleadow::Refusal>(())
    /// ```
    #[must_use]
    pub fn as_bytes(&self) -> &[u8; STATE_BYTES] {
        // SAFETY: a state is so many bytes without one between them, which live as long as it does.
        unsafe { &*core::ptr::from_ref(self).cast() }
    }

    /// The places that the stack may use.
    ///
    /// ```
    /// # use fairleadow::State;
    /// assert_eq!(State::fresh(7)?.size(), 7);
    /// # Ok::<(), fairleadow::Refusal>(())
    /// ```
    #[must_use]
    pub fn size(&self) -> usize {
        usize::from(self.0.size)
    }

    /// The places in use: how many schemes are open.
    ///
    /// ```
    /// # use fairleadow::State;
    /// assert_eq!(State::fresh(7)?.depth(), 1);
    /// # Ok::<(), fairleadow::Refusal>(())
    /// ```
    #[must_use]
    pub fn depth(&self) -> usize {
        usize::from(self.0.depth)
    }

    /// The label of each open scheme, the bottom first.
    ///
    /// ```
    /// # use fairleadow::State;
    /// assert_eq!(State::fresh(7)?.labels(), [0]);
    /// # Ok::<(), fairleadow::Refusal>(())
    /// ```
    #[must_use]
    pub fn labels(&self) -> &[u8] {
        self.in_use(&self.0.places)
    }

    /// The number that each open scheme was called by, the bottom first: 1 or the handler's.
    ///
    /// ```
    /// # use fairleadow::State;
    /// assert_eq!(State::fresh(7)?.numbers(), [1]);
    /// # Ok::<(), fairleadow::Refusal>(())
    /// ```
    #[must_use]
    pub fn numbers(&self) -> &[u8] {
        self.in_use(&self.0.numbers)
    }

    /// The scheme that served that number at the call, the bottom first: each open scheme.
    ///
    /// ```
    /// # use fairleadow::State;
    /// assert_eq!(State::fresh(7)?.servers(), [1]);
    /// # Ok::<(), fairleadow::Refusal>(())
    /// ```
    #[must_use]
    pub fn servers(&self) -> &[u8] {
        self.in_use(&self.0.servers)
    }

    /// The result bit of a number, 1 to 16; there are no others.
    ///
    /// ```
    /// # use fairleadow::State;
    /// let state = State::fresh(7)?;
    /// assert_eq!((state.result(0), state.result(16), state.result(17)), (None, Some(false), None));
    /// # Ok::<(), fairleadow::Refusal>(())
    /// ```
    #[must_use]
    pub fn result(&self, number: usize) -> Option<bool> {
        of_number(&self.0.results, number).map(|byte| byte != 0)
    }

    /// The scheme that serves a number, 1 to 16, from the next call on; there are no others.
    ///
    /// ```
    /// # use fairleadow::State;
    /// let state = State::fresh(7)?;
    /// assert_eq!((state.serving(0), state.serving(5), state.serving(17)), (None, Some(5), None));
    /// # Ok::<(), fairleadow::Refusal>(())
    /// ```
    #[must_use]
    pub fn serving(&self, number: usize) -> Option<u8> {
        of_number(&self.0.serving, number)
    }

    /// What the list has for places in use; all of it where more are said to be than there are.
    fn in_use<'a>(&self, list: &'a [u8; PLACES]) -> &'a [u8] {
        &list[..self.depth().min(PLACES)]
    }
}

/// Numbers count from 1.
fn of_number(list: &[u8; SCHEMES], number: usize) -> Option<u8> {
    list.get(number.checked_sub(1)?).copied()
}

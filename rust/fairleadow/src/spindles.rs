use crate::call::{answered, length};
use crate::{c, Image, Refusal, State, Table, Tick, SPINDLES};

/// Four spindles with one store of 64 places: each has a state and a table of its own, a call takes a place of the store, and a return or a
/// drop gives its places back.
///
/// ```
/// use fairleadow::{Chart, Image, Refusal, Spindles, Table};
///
/// let table = Table::of(&Image::of(&Chart::little(2, 0)?)?)?;
/// let mut spindles = Spindles::fresh([16; 4])?;
/// assert_eq!(spindles.tick(3, &table, 0)?.code, 0x04);
/// assert_eq!(spindles.tick(4, &table, 0), Err(Refusal::NoSpindle));
/// assert_eq!(spindles.taken(), 4);
/// # Ok::<(), Refusal>(())
/// ```
// not Copy, as a machine is not
#[derive(Clone, Debug, PartialEq, Eq)]
pub struct Spindles {
    states: [State; SPINDLES],
    taken: u64,
}

impl Spindles {
    /// Four fresh states, each of so many places, 1 to 32. Tries 14.
    ///
    /// ```
    /// use fairleadow::{Refusal, Spindles};
    ///
    /// assert_eq!(Spindles::fresh([1, 2, 3, 32])?.state(3).map(|state| state.size()), Some(32));
    /// assert_eq!(Spindles::fresh([1, 2, 3, 33]), Err(Refusal::BadSize));
    /// # Ok::<(), Refusal>(())
    /// ```
    pub fn fresh(places: [usize; SPINDLES]) -> Result<Spindles, Refusal> {
        let [first, second, third, fourth] = places.map(State::fresh);
        Ok(Spindles::with([first?, second?, third?, fourth?]))
    }

    /// Spindles that go on with states, as ones that were stored. Whether they fit, and have at most 64 places together, is tried at each
    /// tick.
    ///
    /// ```
    /// use fairleadow::{Spindles, State};
    ///
    /// assert_eq!(Spindles::with([State::fresh(16)?; 4]), Spindles::fresh([16; 4])?);
    /// # Ok::<(), fairleadow::Refusal>(())
    /// ```
    #[must_use]
    pub fn with(states: [State; SPINDLES]) -> Spindles {
        let taken = states.iter().map(|state| state.depth() as u64).sum();
        Spindles { states, taken }
    }

    /// How many places are taken, of 64.
    ///
    /// ```
    /// use fairleadow::Spindles;
    ///
    /// assert_eq!(Spindles::fresh([16; 4])?.taken(), 4);
    /// # Ok::<(), fairleadow::Refusal>(())
    /// ```
    #[must_use]
    pub fn taken(&self) -> usize {
        // a record that a tick changes is at most 64, and at first it is a sum of four bytes
        self.taken as usize
    }

    /// The state of a spindle, 0 to 3; there are no others.
    ///
    /// ```
    /// use fairleadow::Spindles;
    ///
    /// let spindles = Spindles::fresh([16; 4])?;
    /// assert_eq!((spindles.state(3).is_some(), spindles.state(4)), (true, None));
    /// # Ok::<(), fairleadow::Refusal>(())
    /// ```
    #[must_use]
    pub fn state(&self, spindle: usize) -> Option<&State> {
        self.states.get(spindle)
    }

    /// One tick of a spindle, 0 to 3, by its table and a word. With a refusal nothing has changed: after [`NoPlace`](Refusal::NoPlace) the
    /// same tick may be tried again when another spindle has given back a place. Tries 25, 15, 17, 26 and 18; 11 after 25 on a table that
    /// was damaged since.
    ///
    /// ```
    /// use fairleadow::{Chart, Image, Spindles, Table};
    ///
    /// // scheme 1 calls number 2
    /// let chart = Chart::parse("00010001000000000000FE\n02010202000000000001F8\n01010000000000000000FE\n\
    ///     00020004000000000000FA\n02020005000000000002F5\n01020000000000000000FD\n")?;
    /// let table = Table::of(&Image::of(&chart)?)?;
    /// let mut spindles = Spindles::fresh([2; 4])?;
    /// assert_eq!(spindles.tick(1, &table, 0)?.code, 0x04);
    /// assert_eq!((spindles.tick(1, &table, 0)?.code, spindles.taken()), (0x12, 5));
    /// # Ok::<(), fairleadow::Refusal>(())
    /// ```
    pub fn tick<B: AsRef<[u8]>>(
        &mut self,
        spindle: usize,
        table: &Table<B>,
        word: u16,
    ) -> Result<Tick, Refusal> {
        self.spun(c::fairleadow_live_spin, spindle, table.bytes(), word)
    }

    /// The same by its image, which is checked anew. Tries 25, what [`Image::parse`] tries, then 15, 17, 26 and 18.
    ///
    /// ```
    /// use fairleadow::{Chart, Image, Spindles};
    ///
    /// let image = Image::of(&Chart::little(2, 0)?)?;
    /// let mut spindles = Spindles::fresh([16; 4])?;
    /// assert_eq!(spindles.tick_by_image(0, &image, 0)?.code, 0x04);
    /// # Ok::<(), fairleadow::Refusal>(())
    /// ```
    pub fn tick_by_image<B: AsRef<[u8]>>(
        &mut self,
        spindle: usize,
        image: &Image<B>,
        word: u16,
    ) -> Result<Tick, Refusal> {
        self.spun(c::fairleadow_spin, spindle, image.text(), word)
    }

    /// From now on a call of this number by a spindle, 0 to 3, opens this scheme, as [`Table::rebind`] does. Tries 25, 15 and 22;
    /// 11 after 25 on a table that was damaged since.
    ///
    /// ```
    /// use fairleadow::{Chart, Image, Refusal, Spindles, Table};
    ///
    /// let table = Table::of(&Image::of(&Chart::little(2, 0)?)?)?;
    /// let mut spindles = Spindles::fresh([16; 4])?;
    /// assert_eq!(spindles.rebind(0, &table, 2, 3), Err(Refusal::BadRebinding));
    /// assert_eq!(spindles.rebind(4, &table, 2, 3), Err(Refusal::NoSpindle));
    /// # Ok::<(), Refusal>(())
    /// ```
    pub fn rebind<B: AsRef<[u8]>>(
        &mut self,
        spindle: usize,
        table: &Table<B>,
        number: usize,
        scheme: usize,
    ) -> Result<(), Refusal> {
        table.rebind(self.states.get_mut(spindle).ok_or(Refusal::NoSpindle)?, number, scheme)
    }

    fn spun(&mut self, call: c::Spin, spindle: usize, ground: &[u8], word: u16) -> Result<Tick, Refusal> {
        let mut tick = Tick::default();
        // SAFETY: the ground is borrowed for the call, which reads it; the states, each of which is one of C's, the record of places and
        // the tick's mask and code are borrowed for it alone.
        answered(|index, count| unsafe {
            call(
                self.states.as_mut_ptr().cast::<c::State>(),
                SPINDLES as u64,
                &mut self.taken,
                spindle as u64,
                ground.as_ptr(),
                length(ground),
                word,
                &mut tick.mask,
                &mut tick.code,
                index,
                count,
            )
        })?;
        Ok(tick)
    }
}

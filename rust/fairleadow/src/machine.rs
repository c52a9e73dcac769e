use crate::{Buffer, Refusal, State, Table, Tick, TABLE};

/// A table and a state: a machine that ticks.
///
/// ```
/// use fairleadow::{Chart, Image, Machine, Table};
///
/// let chart = Chart::parse("00010001000000000000FE\n02010002000000000001FA\n01010000000000000000FE\n")?;
/// let mut machine = Machine::fresh(Table::of(&Image::of(&chart)?)?, 1)?;
/// assert_eq!(machine.tick(0)?.code, 0x04);
/// assert_eq!(machine.tick(0)?.mask, 0x0000_0001);
/// # Ok::<(), fairleadow::Refusal>(())
/// ```
// not Copy: a copy made unseen would tick in its place
#[derive(Clone, Debug, PartialEq, Eq)]
pub struct Machine<B = Buffer<TABLE>> {
    table: Table<B>,
    state: State,
}

impl<B: AsRef<[u8]>> Machine<B> {
    /// A machine with a fresh state of so many places, 1 to 32. Tries 14.
    ///
    /// ```
    /// use fairleadow::{Chart, Image, Machine, Refusal, Table};
    ///
    /// let table = Table::of(&Image::of(&Chart::little(2, 0)?)?)?;
    /// assert_eq!(Machine::fresh(table, 0), Err(Refusal::BadSize));
    /// # Ok::<(), Refusal>(())
    /// ```
    pub fn fresh(table: Table<B>, places: usize) -> Result<Self, Refusal> {
        Ok(Machine { table, state: State::fresh(places)? })
    }

    /// A machine that goes on with a state, as one that was stored. Whether it fits is tried at each tick.
    ///
    /// ```
    /// use fairleadow::{Chart, Image, Machine, Refusal, State, Table};
    ///
    /// let table = Table::of(&Image::of(&Chart::little(2, 0)?)?)?;
    /// let mut machine = Machine::with(table, State::from_bytes([7; 130]));
    /// assert_eq!(machine.tick(0), Err(Refusal::Unfit));
    /// # Ok::<(), Refusal>(())
    /// ```
    pub fn with(table: Table<B>, state: State) -> Self {
        Machine { table, state }
    }

    /// Its table.
    ///
    /// ```
    /// # use fairleadow::{Chart, Image, Machine, Table};
    /// let machine = Machine::fresh(Table::of(&Image::of(&Chart::little(2, 0)?)?)?, 1)?;
    /// machine.table().check()?;
    /// # Ok::<(), fairleadow::Refusal>(())
    /// ```
    pub fn table(&self) -> &Table<B> {
        &self.table
    }

    /// Its state.
    ///
    /// ```
    /// # use fairleadow::{Chart, Image, Machine, Table};
    /// let machine = Machine::fresh(Table::of(&Image::of(&Chart::little(2, 0)?)?)?, 1)?;
    /// assert_eq!(machine.state().depth(), 1);
    /// # Ok::<(), fairleadow::Refusal>(())
    /// ```
    pub fn state(&self) -> &State {
        &self.state
    }

    /// One tick by a word, bit i of which is condition i. With a refusal the state is as it was. Tries 15, 17 and 18; 11 on a table that
    /// was damaged since.
    ///
    /// ```
    /// #![deny(unused_must_use)]
    /// # use fairleadow::{Chart, Image, Machine, Table};
    /// let mut machine = Machine::fresh(Table::of(&Image::of(&Chart::little(2, 0)?)?)?, 1)?;
    /// let tick = machine.tick(0)?;
    /// # assert_eq!(tick.code, 0x04);
    /// # Ok::<(), fairleadow::Refusal>(())
    /// ```
    ///
    /// A refusal that is ignored is a warning, which is an error here:
    ///
    /// ```compile_fail
    /// #![deny(unused_must_use)]
    /// # use fairleadow::{Chart, Image, Machine, Table};
    /// let mut machine = Machine::fresh(Table::of(&Image::of(&Chart::little(2, 0)?)?)?, 1)?;
    /// machine.tick(0);
    /// # Ok::<(), fairleadow::Refusal>(())
    /// ```
    pub fn tick(&mut self, word: u16) -> Result<Tick, Refusal> {
        self.table.tick(&mut self.state, word)
    }

    /// One tick a word. For a run that is stopped use [`run_in`](Machine::run_in), which keeps the ticks before: the state has made them.
    /// Tries 15, 17 and 18, as [`tick`](Machine::tick).
    ///
    /// ```
    /// # use fairleadow::{Chart, Image, Machine, Table};
    /// let chart = Chart::parse("00010001000000000000FE\n02010002000000000001FA\n01010000000000000000FE\n")?;
    /// let mut machine = Machine::fresh(Table::of(&Image::of(&chart)?)?, 1)?;
    /// assert_eq!(machine.run(&[0, 0, 0])?.map(|tick| tick.mask), [0, 1, 0]);
    /// # Ok::<(), fairleadow::Refusal>(())
    /// ```
    pub fn run<const N: usize>(&mut self, words: &[u16; N]) -> Result<[Tick; N], Refusal> {
        self.table.run(&mut self.state, words)
    }

    /// The same with lent buffers, a mask and a code for each word. Counts the ticks; those finished before [`Full`](Refusal::Full) or
    /// [`NoRow`](Refusal::NoRow) stand in the buffers, and the state is the one after them. Tries 15 to 18, as [`tick`](Machine::tick).
    ///
    /// ```
    /// # use fairleadow::{Chart, Image, Machine, Table};
    /// let mut machine = Machine::fresh(Table::of(&Image::of(&Chart::little(2, 0)?)?)?, 1)?;
    /// let (mut masks, mut codes) = ([0; 64], [0; 64]);
    /// assert_eq!(machine.run_in(&[0, 0], &mut masks, &mut codes)?, 2);
    /// # Ok::<(), fairleadow::Refusal>(())
    /// ```
    pub fn run_in(&mut self, words: &[u16], masks: &mut [u32], codes: &mut [u8]) -> Result<usize, Refusal> {
        self.table.run_in(&mut self.state, words, masks, codes)
    }

    /// From now on a call of this number opens this scheme; what is open goes on as it is. With a refusal the state is as it was. Tries 15
    /// and 22; 11 on a table that was damaged since.
    ///
    /// ```
    /// # use fairleadow::{Chart, Image, Machine, Table};
    /// // scheme 1 calls number 2; schemes 2 and 3 have one operation each
    /// let chart = Chart::parse("00010001000000000000FE\n02010202000000000001F8\n01010000000000000000FE\n\
    ///     00020004000000000000FA\n02020005000000000002F5\n01020000000000000000FD\n\
    ///     00030007000000000000F6\n02030008000000000004EF\n01030000000000000000FC\n")?;
    /// let mut machine = Machine::fresh(Table::of(&Image::of(&chart)?)?, 2)?;
    /// assert_eq!(machine.run(&[0; 3])?.map(|tick| tick.mask), [0, 1, 2]);
    ///
    /// let mut machine = Machine::fresh(machine.table().clone(), 2)?;
    /// machine.rebind(2, 3)?;
    /// assert_eq!(machine.run(&[0; 3])?.map(|tick| tick.mask), [0, 1, 4]);
    /// # Ok::<(), fairleadow::Refusal>(())
    /// ```
    pub fn rebind(&mut self, number: usize, scheme: usize) -> Result<(), Refusal> {
        self.table.rebind(&mut self.state, number, scheme)
    }
}

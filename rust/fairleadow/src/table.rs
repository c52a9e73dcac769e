use crate::call::{length, ran, read, rebound, ticked, ticks, written};
use crate::{c, Buffer, Image, Refusal, State, Tick, TABLE};

/// A prepared table: an image checked once and made ready for ticks, ten bytes a line. The bytes are lent or held by the value itself.
///
/// ```
/// use fairleadow::{Chart, Image, Table, FRAME};
///
/// let table = Table::of(&Image::of(&Chart::little(2, 0)?)?)?;
/// assert_eq!(table.bytes().len(), 4 * FRAME);
/// # Ok::<(), fairleadow::Refusal>(())
/// ```
#[derive(Clone, Copy, Debug, PartialEq, Eq)]
pub struct Table<B = Buffer<TABLE>>(B);

impl<B: AsRef<[u8]>> Table<B> {
    /// The table of these bytes, which are exactly what the preparation writes for some image. Tries 11 to 13.
    ///
    /// ```
    /// use fairleadow::{Chart, Image, Refusal, Table};
    ///
    /// let table = Table::of(&Image::of(&Chart::little(2, 0)?)?)?;
    /// assert!(Table::parse(table.bytes()).is_ok());
    /// assert_eq!(Table::parse([0; 40]), Err(Refusal::BadHeader));
    /// # Ok::<(), Refusal>(())
    /// ```
    pub fn parse(bytes: B) -> Result<Self, Refusal> {
        let table = Table(bytes);
        table.check()?;
        Ok(table)
    }

    /// Its bytes.
    ///
    /// ```
    /// use fairleadow::{Chart, Image, Table, FRAME};
    ///
    /// let table = Table::of(&Image::of(&Chart::little(2, 0)?)?)?;
    /// assert_eq!(table.bytes().len() % FRAME, 0);
    /// # Ok::<(), fairleadow::Refusal>(())
    /// ```
    pub fn bytes(&self) -> &[u8] {
        self.0.as_ref()
    }

    /// Whether it is still what a preparation writes: to be asked where the machine stands. Whether it is still the one of before only a
    /// [`sum`] tells. Tries 11 to 13.
    ///
    /// ```
    /// use fairleadow::{Chart, Image, Table};
    ///
    /// let table = Table::of(&Image::of(&Chart::little(2, 0)?)?)?;
    /// table.check()?;
    /// # Ok::<(), fairleadow::Refusal>(())
    /// ```
    pub fn check(&self) -> Result<(), Refusal> {
        read(c::fairleadow_check_table, self.bytes())?;
        Ok(())
    }

    /// One tick of a state by a word, bit i of which is condition i. With a refusal the state is as it was. Tries 15, 17 and 18; 11 on
    /// a table that was damaged since.
    ///
    /// ```
    /// use fairleadow::{Chart, Image, Meaning, State, Table};
    ///
    /// let table = Table::of(&Image::of(&Chart::little(2, 0)?)?)?;
    /// let mut state = State::fresh(1)?;
    /// assert_eq!(table.tick(&mut state, 0)?.meaning(), Meaning::Home);
    /// # Ok::<(), fairleadow::Refusal>(())
    /// ```
    pub fn tick(&self, state: &mut State, word: u16) -> Result<Tick, Refusal> {
        ticked(c::fairleadow_live_tick, self.bytes(), &mut state.0, word)
    }

    /// One tick a word. For a run that is stopped use [`run_in`](Table::run_in), which keeps the ticks before: the state has made them.
    /// Tries 15, 17 and 18, as [`tick`](Table::tick).
    ///
    /// ```
    /// use fairleadow::{Chart, Image, State, Table};
    ///
    /// let chart = Chart::parse("00010001000000000000FE\n02010002000000000001FA\n01010000000000000000FE\n")?;
    /// let table = Table::of(&Image::of(&chart)?)?;
    /// let ticks = table.run(&mut State::fresh(1)?, &[0, 0, 0])?;
    /// assert_eq!(ticks.map(|tick| tick.mask), [0, 1, 0]);
    /// # Ok::<(), fairleadow::Refusal>(())
    /// ```
    pub fn run<const N: usize>(&self, state: &mut State, words: &[u16; N]) -> Result<[Tick; N], Refusal> {
        ticks(|masks, codes| self.run_in(state, words, masks, codes))
    }

    /// The same with lent buffers, a mask and a code for each word. Counts the ticks; those finished before [`Full`](Refusal::Full) or
    /// [`NoRow`](Refusal::NoRow) stand in the buffers, and the state is the one after them. Tries 15 to 18, as [`tick`](Table::tick).
    ///
    /// ```
    /// use fairleadow::{Chart, Image, Refusal, State, Table};
    ///
    /// // scheme 1 calls number 2, and one place is not enough for that
    /// let chart = Chart::parse("00010001000000000000FE\n02010202000000000001F8\n01010000000000000000FE\n\
    ///     00020004000000000000FA\n02020005000000000002F5\n01020000000000000000FD\n")?;
    /// let table = Table::of(&Image::of(&chart)?)?;
    /// let (mut masks, mut codes) = ([9; 3], [9; 3]);
    /// let stopped = table.run_in(&mut State::fresh(1)?, &[0, 0, 0], &mut masks, &mut codes);
    /// assert_eq!(stopped, Err(Refusal::Full { ticks: 1 }));
    /// assert_eq!(codes, [0x04, 9, 9]);
    /// # Ok::<(), Refusal>(())
    /// ```
    pub fn run_in(
        &self,
        state: &mut State,
        words: &[u16],
        masks: &mut [u32],
        codes: &mut [u8],
    ) -> Result<usize, Refusal> {
        ran(c::fairleadow_live_run, self.bytes(), &mut state.0, words, masks, codes)
    }

    /// From now on a call of this number opens this scheme; what is open goes on as it is. With a refusal the state is as it was. Tries 15
    /// and 22; 11 on a table that was damaged since.
    ///
    /// ```
    /// use fairleadow::{Chart, Image, Refusal, State, Table};
    ///
    /// let table = Table::of(&Image::of(&Chart::little(2, 0)?)?)?;
    /// assert_eq!(table.rebind(&mut State::fresh(1)?, 2, 3), Err(Refusal::BadRebinding));
    /// # Ok::<(), Refusal>(())
    /// ```
    pub fn rebind(&self, state: &mut State, number: usize, scheme: usize) -> Result<(), Refusal> {
        rebound(c::fairleadow_live_rebind, self.bytes(), &mut state.0, number, scheme)
    }
}

impl Table {
    /// The table of an image. What [`Image::parse`] took is not refused.
    ///
    /// ```
    /// use fairleadow::{Chart, Image, Table};
    ///
    /// let table = Table::of(&Image::of(&Chart::little(2, 0)?)?)?;
    /// assert_eq!(table.bytes().len(), 40);
    /// # Ok::<(), fairleadow::Refusal>(())
    /// ```
    pub fn of<B: AsRef<[u8]>>(image: &Image<B>) -> Result<Table, Refusal> {
        Buffer::filled(|out| written(c::fairleadow_prepare, image.text(), out)).map(Table)
    }
}

impl<'b> Table<&'b [u8]> {
    /// The same with a lent buffer, and from an image's lines, which are checked here: what a controller does once. [`TABLE`] bytes are
    /// always enough. Tries what [`Image::parse`] tries, then 16.
    ///
    /// ```
    /// use fairleadow::{Chart, Image, Refusal, Table};
    ///
    /// let image = Image::of(&Chart::little(2, 0)?)?;
    /// let mut buffer = [0; 100];
    /// assert_eq!(Table::prepare_in(image.text(), &mut buffer)?.bytes().len(), 40);
    /// assert_eq!(Table::prepare_in(b"F0", &mut buffer), Err(Refusal::BadLength));
    /// # Ok::<(), Refusal>(())
    /// ```
    pub fn prepare_in(image: &[u8], buffer: &'b mut [u8]) -> Result<Self, Refusal> {
        let length = written(c::fairleadow_prepare, image, buffer)?;
        Ok(Table(&buffer[..length]))
    }
}

/// The CRC-32 (ISO-HDLC, as in zlib, PNG and Ethernet) of bytes behind those whose sum is `sum`; 0 to begin with. So a whole may be summed
/// in parts, one in each tick. Refuses nothing.
///
/// ```
/// use fairleadow::sum;
///
/// assert_eq!(sum(0, b"123456789"), 0xCBF4_3926);
/// assert_eq!(sum(sum(0, b"1234"), b"56789"), 0xCBF4_3926);
/// ```
#[must_use]
pub fn sum(sum: u32, bytes: &[u8]) -> u32 {
    // SAFETY: the slice is borrowed for the call, which reads it.
    unsafe { c::fairleadow_sum(sum, bytes.as_ptr(), length(bytes)) }
}

//! What an image does with a state. It is checked anew at each call; a table is not.

use crate::call::{answered, length, ran, rebound, ticked, ticks};
use crate::{c, Image, Prices, Refusal, State, Tick};

/// What a priced run tells.
#[derive(Clone, Copy, Debug, PartialEq, Eq)]
#[must_use = "it tells whether the run came to its end"]
pub struct Priced {
    /// What the finished ticks cost in all, in cents, rounded once, a half upward.
    pub price: u64,
    /// How many ticks were finished.
    pub ticks: usize,
    /// Why it stopped before its end: [`Full`](Refusal::Full) or [`NoRow`](Refusal::NoRow).
    pub stopped: Option<Refusal>,
}

impl<B: AsRef<[u8]>> Image<B> {
    /// One tick of a state by a word, bit i of which is condition i. With a refusal the state is as it was. Tries what
    /// [`parse`](Image::parse) tries, then 15, 17 and 18.
    ///
    /// ```
    /// use fairleadow::{Chart, Image, Meaning, State};
    ///
    /// let chart = Chart::parse("00010001000000000000FE\n02010002000000000001FA\n01010000000000000000FE\n")?;
    /// let image = Image::of(&chart)?;
    /// let mut state = State::fresh(1)?;
    /// assert_eq!(image.tick(&mut state, 0)?.meaning(), Meaning::Home);
    /// assert_eq!(image.tick(&mut state, 0)?.mask, 1);
    /// # Ok::<(), fairleadow::Refusal>(())
    /// ```
    pub fn tick(&self, state: &mut State, word: u16) -> Result<Tick, Refusal> {
        ticked(c::fairleadow_tick, self.text(), &mut state.0, word)
    }

    /// One tick a word. For a run that is stopped use [`run_in`](Image::run_in), which keeps the ticks before: the state has made them.
    /// Tries what [`parse`](Image::parse) tries, then 15, 17 and 18.
    ///
    /// ```
    /// use fairleadow::{Chart, Image, State};
    ///
    /// let chart = Chart::parse("00010001000000000000FE\n02010002000000000001FA\n01010000000000000000FE\n")?;
    /// let ticks = Image::of(&chart)?.run(&mut State::fresh(1)?, &[0, 0, 0])?;
    /// assert_eq!(ticks.map(|tick| tick.mask), [0, 1, 0]);
    /// # Ok::<(), fairleadow::Refusal>(())
    /// ```
    pub fn run<const N: usize>(&self, state: &mut State, words: &[u16; N]) -> Result<[Tick; N], Refusal> {
        ticks(|masks, codes| self.run_in(state, words, masks, codes))
    }

    /// The same with lent buffers, a mask and a code for each word. Counts the ticks; those finished before [`Full`](Refusal::Full) or
    /// [`NoRow`](Refusal::NoRow) stand in the buffers, and the state is the one after them. Tries what [`parse`](Image::parse) tries, then
    /// 15 to 18.
    ///
    /// ```
    /// use fairleadow::{Chart, Image, State};
    ///
    /// let chart = Chart::parse("00010001000000000000FE\n02010002000000000001FA\n01010000000000000000FE\n")?;
    /// let (mut masks, mut codes) = ([0; 3], [0; 3]);
    /// let count = Image::of(&chart)?.run_in(&mut State::fresh(1)?, &[0, 0, 0], &mut masks, &mut codes)?;
    /// assert_eq!((count, codes), (3, [0x04, 0x00, 0x04]));
    /// # Ok::<(), fairleadow::Refusal>(())
    /// ```
    pub fn run_in(
        &self,
        state: &mut State,
        words: &[u16],
        masks: &mut [u32],
        codes: &mut [u8],
    ) -> Result<usize, Refusal> {
        ran(c::fairleadow_run, self.text(), &mut state.0, words, masks, codes)
    }

    /// A run that tells what it costs, by prices in hundredths of a cent a tick. Tries what [`parse`](Image::parse) tries, then 15, 27 for
    /// more than 65,536 words, and 16; what stops it is told with the price of the ticks before.
    ///
    /// ```
    /// use fairleadow::{Chart, Image, State, OPERATIONS};
    ///
    /// let chart = Chart::parse("00010001000000000000FE\n02010002000000000001FA\n01010000000000000000FE\n")?;
    /// let mut prices = [0; OPERATIONS];
    /// prices[0] = 150;
    /// let (mut masks, mut codes) = ([0; 3], [0; 3]);
    /// let image = Image::of(&chart)?;
    /// let priced = image.priced_run_in(&mut State::fresh(1)?, &prices, &[0, 0, 0], &mut masks, &mut codes)?;
    /// assert_eq!((priced.ticks, priced.price, priced.stopped), (3, 2, None));
    /// # Ok::<(), fairleadow::Refusal>(())
    /// ```
    pub fn priced_run_in(
        &self,
        state: &mut State,
        prices: &Prices,
        words: &[u16],
        masks: &mut [u32],
        codes: &mut [u8],
    ) -> Result<Priced, Refusal> {
        let text = self.text();
        let mut price = 0;
        // SAFETY: text, prices and words are borrowed for the call, which reads them; state, masks and codes are borrowed for it alone, and
        // the price is a place of this function.
        let answer = answered(|index, count| unsafe {
            c::fairleadow_priced_run(
                text.as_ptr(),
                length(text),
                &mut state.0,
                prices.as_ptr(),
                words.as_ptr(),
                length(words),
                masks.as_mut_ptr(),
                length(masks),
                codes.as_mut_ptr(),
                length(codes),
                &mut price,
                index,
                count,
            )
        });
        match answer {
            Ok(ticks) => Ok(Priced { price, ticks, stopped: None }),
            Err(stop @ (Refusal::Full { ticks } | Refusal::NoRow { ticks })) => {
                Ok(Priced { price, ticks, stopped: Some(stop) })
            }
            Err(refusal) => Err(refusal),
        }
    }

    /// From now on a call of this number opens this scheme; what is open goes on as it is. With a refusal the state is as it was. Tries
    /// what [`parse`](Image::parse) tries, then 15 and 22.
    ///
    /// ```
    /// use fairleadow::{Chart, Image, Refusal, State};
    ///
    /// // scheme 1 calls number 2; schemes 2 and 3 have one operation each
    /// let chart = Chart::parse("00010001000000000000FE\n02010202000000000001F8\n01010000000000000000FE\n\
    ///     00020004000000000000FA\n02020005000000000002F5\n01020000000000000000FD\n\
    ///     00030007000000000000F6\n02030008000000000004EF\n01030000000000000000FC\n")?;
    /// let image = Image::of(&chart)?;
    /// let mut state = State::fresh(2)?;
    /// image.rebind(&mut state, 2, 3)?;
    /// assert_eq!(state.serving(2), Some(3));
    /// assert_eq!(image.rebind(&mut state, 1, 3), Err(Refusal::BadRebinding));
    /// # Ok::<(), Refusal>(())
    /// ```
    pub fn rebind(&self, state: &mut State, number: usize, scheme: usize) -> Result<(), Refusal> {
        rebound(c::fairleadow_rebind, self.text(), &mut state.0, number, scheme)
    }
}

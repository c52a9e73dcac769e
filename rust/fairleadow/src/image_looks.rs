//! What an image tells of itself.

use core::ops::Range;

use crate::call::{answered, length};
use crate::{c, Fillings, Image, Refusal, State, LABELS};

/// What makes a tick go where it goes.
#[derive(Clone, Copy, Debug, PartialEq, Eq)]
pub struct Cause {
    /// The row that is taken, among the image's rows from 0.
    pub row: u16,
    /// The conditions that decide: every word that agrees with this one on them takes the same row.
    pub mask: u16,
    /// The result bit of the number called, where the row is a function's.
    pub bit: Option<bool>,
}

/// The rows of each label.
#[derive(Clone, Debug, PartialEq, Eq)]
pub struct Listing {
    firsts: [u16; LABELS],
    counts: [u16; LABELS],
    labels: usize,
}

impl Listing {
    /// How many labels there are.
    ///
    /// ```
    /// use fairleadow::{Chart, Image};
    ///
    /// assert_eq!(Image::of(&Chart::little(2, 0)?)?.list_rows()?.labels(), 2);
    /// # Ok::<(), fairleadow::Refusal>(())
    /// ```
    #[must_use]
    pub fn labels(&self) -> usize {
        self.labels
    }

    /// The rows of a label, among the image's rows from 0; `None` where there is no such label.
    ///
    /// ```
    /// use fairleadow::{Chart, Image};
    ///
    /// let chart = Chart::parse("00010001000000000000FE\n02010002000000000001FA\n01010000000000000000FE\n")?;
    /// let listing = Image::of(&chart)?.list_rows()?;
    /// assert_eq!((listing.rows(1), listing.rows(2), listing.rows(3)), (Some(0..0), Some(0..1), None));
    /// # Ok::<(), fairleadow::Refusal>(())
    /// ```
    #[must_use]
    pub fn rows(&self, label: usize) -> Option<Range<usize>> {
        let first = usize::from(*self.firsts.get(..self.labels)?.get(label)?);
        Some(first..first + usize::from(self.counts[label]))
    }
}

impl<B: AsRef<[u8]>> Image<B> {
    /// What makes the tick of a state by a word go where it goes; no tick is made. A home tick, a call and a handler's return at depth 1
    /// take no row. Tries what [`parse`](Image::parse) tries, then 15, 21 and 18.
    ///
    /// ```
    /// use fairleadow::{Chart, Image, Refusal, State};
    ///
    /// let chart = Chart::parse("00010001000000000000FE\n03010202030000000000F5\n02010004000000000001F8\n\
    ///     01010000000000000000FE\n02010003000000000002F8\n")?;
    /// let image = Image::of(&chart)?;
    /// let mut state = State::fresh(1)?;
    /// assert_eq!(image.cause(&state, 0), Err(Refusal::Rowless));
    /// image.run(&mut state, &[0])?;
    /// let cause = image.cause(&state, 0b0100)?;
    /// assert_eq!((cause.mask, cause.bit), (0b0100, None));
    /// # Ok::<(), Refusal>(())
    /// ```
    pub fn cause(&self, state: &State, word: u16) -> Result<Cause, Refusal> {
        let text = self.text();
        let (mut row, mut mask, mut bit) = (0, 0, 0);
        // SAFETY: text and state are borrowed for the call, which reads them; row, mask and bit are places of this function.
        answered(|index, count| unsafe {
            let at = text.as_ptr();
            c::fairleadow_cause(at, length(text), &state.0, word, &mut row, &mut mask, &mut bit, index, count)
        })?;
        let bit = match bit {
            0 => Some(false),
            1 => Some(true),
            _ => None,
        };
        Ok(Cause { row, mask, bit })
    }

    /// The rows of each label; a tick looks at those of one label alone. Tries what [`parse`](Image::parse) tries.
    ///
    /// ```
    /// use fairleadow::{Chart, Image};
    ///
    /// let listing = Image::of(&Chart::little(2, 0)?)?.list_rows()?;
    /// assert_eq!(listing.labels(), 2);
    /// # Ok::<(), fairleadow::Refusal>(())
    /// ```
    pub fn list_rows(&self) -> Result<Listing, Refusal> {
        let text = self.text();
        let (mut firsts, mut counts) = ([0; LABELS], [0; LABELS]);
        // SAFETY: the text is borrowed for the call, which reads it; both lists are places of this function.
        let labels = answered(|index, count| unsafe {
            c::fairleadow_list_rows(
                text.as_ptr(),
                length(text),
                firsts.as_mut_ptr(),
                length(&firsts),
                counts.as_mut_ptr(),
                length(&counts),
                index,
                count,
            )
        })?;
        Ok(Listing { firsts, counts, labels })
    }

    /// How often the stack fills: of all lists of so many words in which only so many conditions, from 0 up, are ever 1, each run from a
    /// fresh state of so many places. Tries what [`parse`](Image::parse) tries, then 14 and 28, for more than 16 ticks times conditions.
    ///
    /// ```
    /// use fairleadow::{Chart, Fillings, Image, Refusal};
    ///
    /// // calls at its third tick if condition 0 was 1 at the second
    /// let chart = Chart::parse("00010001000000000000FE\n03010002030000000000F7\n01010000000000000000FE\n\
    ///     02010202000000000001F8\n00020005000000000000F9\n01020000000000000000FD\n")?;
    /// let image = Image::of(&chart)?;
    /// assert_eq!(image.count_fillings(1, 3, 1)?, Fillings { ended: 4, full: 4, unmatched: 0 });
    /// assert_eq!(image.count_fillings(1, 17, 1), Err(Refusal::ManyLists));
    /// # Ok::<(), Refusal>(())
    /// ```
    pub fn count_fillings(
        &self,
        places: usize,
        ticks: usize,
        conditions: usize,
    ) -> Result<Fillings, Refusal> {
        let text = self.text();
        let (mut ended, mut full, mut unmatched) = (0, 0, 0);
        // SAFETY: the text is borrowed for the call, which reads it; the three counts are places of this function.
        answered(|index, count| unsafe {
            c::fairleadow_count_fillings(
                text.as_ptr(),
                length(text),
                places as u64,
                ticks as u64,
                conditions as u64,
                &mut ended,
                &mut full,
                &mut unmatched,
                index,
                count,
            )
        })?;
        Ok(Fillings { ended, full, unmatched })
    }
}

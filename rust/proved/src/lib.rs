//! The proved library behind the trait that the reference is compared by: slices in, an answer out. A program calls the crate
//! `fairleadow` instead, whose types let no refusal go unseen.
//!
//! What a call tells that is no answer ends the program: a number that no refusal has, an index or a count that does not go with the number,
//! and whatever a refusal leaves that it should not.
//!
//! Each call borrows its buffers: no reference is null, and what is borrowed for writing overlaps nothing else, which is all that
//! the header asks.

pub use fairleadow::c;
pub use interface::*;

#[cfg(test)]
mod tests;

/// The proved library.
///
/// Node records and chart lines turn into each other:
///
/// ```
/// use proved::{Library, Proved, CHART_TEXT, RECORD, RECORDS};
///
/// let chart = b"00010001000000000000FE\n01010000000000000000FE\n";
/// let mut records = [0; RECORDS];
/// let count = Proved.read_chart(chart, &mut records)?;
/// assert_eq!(count, 2);
///
/// let mut text = [0; CHART_TEXT];
/// let length = Proved.write_chart(&records[..count * RECORD], &mut text)?;
/// assert_eq!(&text[..length], chart);
/// # Ok::<(), proved::Refusal>(())
/// ```
///
/// The controller prepares its image once and keeps one state, and each live tick advances that:
///
/// ```
/// use proved::{Library, Proved, IMAGE_TEXT, PLACES, TABLE};
///
/// let mut image = [0; IMAGE_TEXT];
/// let length = Proved.translate(b"00010001000000000000FE\n01010000000000000000FE\n", &mut image)?;
/// let mut table = [0; TABLE];
/// let length = Proved.prepare(&image[..length], &mut table)?;
///
/// let mut state = Proved.fresh(PLACES)?;
/// let tick = Proved.live_tick(&table[..length], &mut state, 0)?;
/// assert_eq!((tick.code, state.depth, state.results[0]), (0x04, 1, false));
/// # Ok::<(), proved::Refusal>(())
/// ```
///
/// A chart can be run from its text in one call, three ticks here:
///
/// ```
/// use proved::{Library, Proved, IMAGE_TEXT, PLACES};
///
/// let chart = b"00010001000000000000FE\n02010002000000000001FA\n01010000000000000000FE\n";
/// let (mut image, mut masks, mut codes) = ([0; IMAGE_TEXT], [0; 3], [0; 3]);
/// let count = Proved.dry_run(chart, PLACES, &mut image, &[0, 0, 0], &mut masks, &mut codes)?;
/// assert_eq!((count, masks, codes), (3, [0, 1, 0], [0x04, 0x00, 0x04]));
/// # Ok::<(), proved::Refusal>(())
/// ```
///
/// A run can be priced: here a tick of micro operation 0 costs 1.5 cents, and of three ticks the second has it on.
///
/// ```
/// use proved::{Library, Proved, IMAGE_TEXT, OPERATIONS, PLACES};
///
/// let chart = b"00010001000000000000FE\n02010002000000000001FA\n01010000000000000000FE\n";
/// let mut image = [0; IMAGE_TEXT];
/// let length = Proved.translate(chart, &mut image)?;
/// let mut prices = [0; OPERATIONS];
/// prices[0] = 150;
/// let (mut state, mut masks, mut codes) = (Proved.fresh(PLACES)?, [0; 3], [0; 3]);
/// let priced = Proved.priced_run(&image[..length], &mut state, &prices, &[0, 0, 0], &mut masks, &mut codes);
/// assert_eq!((priced.answer?, masks, priced.price), (3, [0, 1, 0], 2));
/// # Ok::<(), proved::Refusal>(())
/// ```
///
/// Between two ticks a number can be given another scheme to serve it; here there is only scheme 1, which nothing calls:
///
/// ```
/// use proved::{Library, Proved, Refusal, IMAGE_TEXT, PLACES};
///
/// let mut image = [0; IMAGE_TEXT];
/// let length = Proved.translate(b"00010001000000000000FE\n01010000000000000000FE\n", &mut image)?;
/// let mut state = Proved.fresh(PLACES)?;
/// assert_eq!(Proved.rebind(&image[..length], &mut state, 2, 3), Err(Refusal::BadRebinding));
/// assert_eq!(state, Proved.fresh(PLACES)?);
/// # Ok::<(), proved::Refusal>(())
/// ```
///
/// Every little chart can be fetched by its frame count and its number; there are 2 of 2 frames:
///
/// ```
/// use proved::{Library, Proved, Refusal, LITTLE_TEXT};
///
/// let mut text = [0; LITTLE_TEXT];
/// let length = Proved.little_chart(2, 1, &mut text)?;
/// assert_eq!(&text[..length], b"01010000000000000000FE\n00010000000000000000FF\n");
/// assert_eq!(Proved.little_chart(2, 2, &mut text), Err(Refusal::NoLittleChart));
/// # Ok::<(), proved::Refusal>(())
/// ```
///
/// Before a stack is chosen it can be counted how often it fills. This chart calls at its third tick if condition 0 was 1 at the second,
/// and one place is not enough for that:
///
/// ```
/// use proved::{Fillings, Library, Proved, Refusal, IMAGE_TEXT};
///
/// let chart = b"00010001000000000000FE\n03010002030000000000F7\n01010000000000000000FE\n02010202000000000001F8\n\
///     00020005000000000000F9\n01020000000000000000FD\n";
/// let mut image = [0; IMAGE_TEXT];
/// let length = Proved.translate(chart, &mut image)?;
/// let counted = Proved.count_fillings(&image[..length], 1, 3, 1)?;
/// assert_eq!(counted, Fillings { ended: 4, full: 4, unmatched: 0 });
/// assert_eq!(Proved.count_fillings(&image[..length], 1, 17, 1), Err(Refusal::ManyLists));
/// # Ok::<(), proved::Refusal>(())
/// ```
///
/// Four spindles have their states in one list and their places from one store; the places taken are recorded beside it:
///
/// ```
/// use proved::{Library, Proved, IMAGE_TEXT, SPINDLES};
///
/// let mut image = [0; IMAGE_TEXT];
/// let length = Proved.translate(b"00010001000000000000FE\n01010000000000000000FE\n", &mut image)?;
/// let (mut states, mut taken) = ([Proved.fresh(16)?; SPINDLES], SPINDLES);
/// let tick = Proved.spin(&mut states, &mut taken, 3, &image[..length], 0)?;
/// assert_eq!((tick.code, taken), (0x04, 4));
/// let refusal = Proved.spin(&mut states, &mut taken, 4, &image[..length], 0).unwrap_err();
/// assert_eq!(refusal.to_string(), "refusal 25: a spindle's number above 3");
/// # Ok::<(), proved::Refusal>(())
/// ```
pub struct Proved;

impl Proved {
    /// The version of the archive; that of the wrapper is [`VERSION`].
    pub fn version() -> u32 {
        // SAFETY: the call takes and writes nothing.
        unsafe { c::fairleadow_version() }
    }
}

/// Calls with room for index and count, and puts the answer together.
fn answered(call: impl FnOnce(*mut u64, *mut u64) -> u32) -> Answer {
    let (mut index, mut count) = (u64::MAX, u64::MAX);
    // the number stands in the low eight bits
    let number = call(&mut index, &mut count) as u8;
    told(number, index as usize, count as usize)
}

/// How many elements there are, as the archive counts on every processor.
fn length<T>(of: &[T]) -> u64 {
    of.len() as u64
}

/// A call that only reads.
fn read(call: c::Read, text: &[u8]) -> Answer {
    // SAFETY: the text is borrowed for the call, which reads it; index and count are places of the caller.
    answered(|index, count| unsafe { call(text.as_ptr(), length(text), index, count) })
}

/// A call that writes into one lent buffer.
fn written(call: c::Write, text: &[u8], out: &mut [u8]) -> Answer {
    // SAFETY: both slices are borrowed for the call, the one that it writes to alone.
    answered(|index, count| unsafe {
        call(text.as_ptr(), length(text), out.as_mut_ptr(), length(out), index, count)
    })
}

/// A run, on an image or on a table.
fn ran(
    call: c::Run,
    image: &[u8],
    state: &mut State,
    words: &[u16],
    masks: &mut [u32],
    codes: &mut [u8],
) -> Answer {
    let mut kept = c::State::from(&*state);
    // SAFETY: image and words are borrowed for the call, which reads them; state, masks and codes are borrowed for it
    // alone.
    let answer = answered(|index, count| unsafe {
        call(
            image.as_ptr(),
            length(image),
            &mut kept,
            words.as_ptr(),
            length(words),
            masks.as_mut_ptr(),
            length(masks),
            codes.as_mut_ptr(),
            length(codes),
            index,
            count,
        )
    });
    *state = State::from(&kept);
    answer
}

/// A tick, on an image or on a table.
fn ticked(call: c::Tick, image: &[u8], state: &mut State, word: u16) -> Result<Tick, Refusal> {
    let mut kept = c::State::from(&*state);
    let mut tick = Tick::BEFORE;
    // SAFETY: the image is borrowed for the call, which reads it; state, mask and code are places of this function.
    let answer = answered(|index, count| unsafe {
        call(image.as_ptr(), length(image), &mut kept, word, &mut tick.mask, &mut tick.code, index, count)
    });
    *state = State::from(&kept);
    handed(answer, 1, tick, Tick::BEFORE)
}

/// The tick of a spindle, by an image or by a table.
fn spun(
    call: c::Spin,
    states: &mut [State],
    taken: &mut usize,
    spindle: usize,
    image: &[u8],
    word: u16,
) -> Result<Tick, Refusal> {
    let mut kept: Vec<c::State> = states.iter().map(c::State::from).collect();
    let mut record = *taken as u64;
    let mut tick = Tick::BEFORE;
    // SAFETY: the image is borrowed for the call, which reads it; states, record, mask and code are places of this
    // function.
    let answer = answered(|index, count| unsafe {
        call(
            kept.as_mut_ptr(),
            kept.len() as u64,
            &mut record,
            spindle as u64,
            image.as_ptr(),
            length(image),
            word,
            &mut tick.mask,
            &mut tick.code,
            index,
            count,
        )
    });
    *taken = record as usize;
    states.iter_mut().zip(&kept).for_each(|(state, kept)| *state = State::from(kept));
    handed(answer, 1, tick, Tick::BEFORE)
}

/// A rebinding, by an image or by a table.
fn rebound(call: c::Rebind, image: &[u8], state: &mut State, number: usize, scheme: usize) -> Answer {
    let mut kept = c::State::from(&*state);
    // SAFETY: the image is borrowed for the call, which reads it; the state is a place of this function.
    let answer = answered(|index, count| unsafe {
        call(image.as_ptr(), length(image), &mut kept, number as u64, scheme as u64, index, count)
    });
    *state = State::from(&kept);
    answer
}

impl Library for Proved {
    fn read_chart(&self, text: &[u8], out: &mut [u8]) -> Answer {
        written(c::fairleadow_read_chart, text, out)
    }

    fn write_chart(&self, records: &[u8], out: &mut [u8]) -> Answer {
        written(c::fairleadow_write_chart, records, out)
    }

    fn translate(&self, text: &[u8], out: &mut [u8]) -> Answer {
        written(c::fairleadow_translate, text, out)
    }

    fn places(&self, text: &[u8]) -> Answer {
        read(c::fairleadow_places, text)
    }

    fn check_image(&self, text: &[u8]) -> Answer {
        read(c::fairleadow_check_image, text)
    }

    fn fresh(&self, size: usize) -> Result<State, Refusal> {
        let mut state = c::State::filled(0xFF);
        // SAFETY: the state is a place of this function.
        let answer =
            answered(|index, count| unsafe { c::fairleadow_fresh(size as u64, &mut state, index, count) });
        handed(answer, 0, State::from(&state), State::NONE)
    }

    fn run(
        &self,
        image: &[u8],
        state: &mut State,
        words: &[u16],
        masks: &mut [u32],
        codes: &mut [u8],
    ) -> Answer {
        ran(c::fairleadow_run, image, state, words, masks, codes)
    }

    fn dry_run(
        &self,
        text: &[u8],
        size: usize,
        image: &mut [u8],
        words: &[u16],
        masks: &mut [u32],
        codes: &mut [u8],
    ) -> Answer {
        // SAFETY: text and words are borrowed for the call, which reads them; image, masks and codes are borrowed for it
        // alone.
        answered(|index, count| unsafe {
            c::fairleadow_dry_run(
                text.as_ptr(),
                length(text),
                size as u64,
                image.as_mut_ptr(),
                length(image),
                words.as_ptr(),
                length(words),
                masks.as_mut_ptr(),
                length(masks),
                codes.as_mut_ptr(),
                length(codes),
                index,
                count,
            )
        })
    }

    fn priced_run(
        &self,
        image: &[u8],
        state: &mut State,
        prices: &Prices,
        words: &[u16],
        masks: &mut [u32],
        codes: &mut [u8],
    ) -> PricedReport {
        let mut kept = c::State::from(&*state);
        let mut price = u64::MAX;
        // SAFETY: image, prices and words are borrowed for the call, which reads them; masks and codes are borrowed for it
        // alone, and state and price are places of this function.
        let answer = answered(|index, count| unsafe {
            c::fairleadow_priced_run(
                image.as_ptr(),
                length(image),
                &mut kept,
                prices.as_ptr(),
                words.as_ptr(),
                length(words),
                masks.as_mut_ptr(),
                length(masks),
                codes.as_mut_ptr(),
                length(codes),
                &mut price,
                index,
                count,
            )
        });
        *state = State::from(&kept);
        PricedReport { answer, price }
    }

    fn tick(&self, image: &[u8], state: &mut State, word: u16) -> Result<Tick, Refusal> {
        ticked(c::fairleadow_tick, image, state, word)
    }

    fn spin(
        &self,
        states: &mut [State],
        taken: &mut usize,
        spindle: usize,
        image: &[u8],
        word: u16,
    ) -> Result<Tick, Refusal> {
        spun(c::fairleadow_spin, states, taken, spindle, image, word)
    }

    fn rebind(&self, image: &[u8], state: &mut State, number: usize, scheme: usize) -> Answer {
        rebound(c::fairleadow_rebind, image, state, number, scheme)
    }

    fn cause(&self, image: &[u8], state: &State, word: u16) -> Result<Cause, Refusal> {
        let kept = c::State::from(state);
        let (mut row, mut mask, mut bit) = (u16::MAX, u16::MAX, u8::MAX);
        // SAFETY: the image is borrowed for the call, which reads it; all else are places of this function.
        let answer = answered(|index, count| unsafe {
            c::fairleadow_cause(
                image.as_ptr(),
                length(image),
                &kept,
                word,
                &mut row,
                &mut mask,
                &mut bit,
                index,
                count,
            )
        });
        let nothing = Cause { row: 0, mask: 0, bit: 0 };
        handed(answer, 0, Cause { row, mask, bit }, nothing)
    }

    fn list_rows(&self, image: &[u8], firsts: &mut [u16], counts: &mut [u16]) -> Answer {
        // SAFETY: the image is borrowed for the call, which reads it; both lists are borrowed for it alone.
        answered(|index, count| unsafe {
            c::fairleadow_list_rows(
                image.as_ptr(),
                length(image),
                firsts.as_mut_ptr(),
                length(firsts),
                counts.as_mut_ptr(),
                length(counts),
                index,
                count,
            )
        })
    }

    fn minimise(&self, image: &[u8], out: &mut [u8]) -> Answer {
        written(c::fairleadow_minimise, image, out)
    }

    fn little_chart(&self, frames: usize, number: usize, text: &mut [u8]) -> Answer {
        // SAFETY: the text is borrowed for the call alone.
        answered(|index, count| unsafe {
            c::fairleadow_little_chart(
                frames as u64,
                number as u64,
                text.as_mut_ptr(),
                length(text),
                index,
                count,
            )
        })
    }

    fn count_fillings(
        &self,
        image: &[u8],
        size: usize,
        ticks: usize,
        conditions: usize,
    ) -> Result<Fillings, Refusal> {
        let mut found = Fillings { ended: u32::MAX, full: u32::MAX, unmatched: u32::MAX };
        // SAFETY: the image is borrowed for the call, which reads it; the counts are places of this function.
        let answer = answered(|index, count| unsafe {
            c::fairleadow_count_fillings(
                image.as_ptr(),
                length(image),
                size as u64,
                ticks as u64,
                conditions as u64,
                &mut found.ended,
                &mut found.full,
                &mut found.unmatched,
                index,
                count,
            )
        });
        handed(answer, 0, found, Fillings::default())
    }

    fn prepare(&self, image: &[u8], table: &mut [u8]) -> Answer {
        written(c::fairleadow_prepare, image, table)
    }

    fn check_table(&self, table: &[u8]) -> Answer {
        read(c::fairleadow_check_table, table)
    }

    fn sum(&self, sum: u32, bytes: &[u8]) -> u32 {
        // SAFETY: the bytes are borrowed for the call, which reads them.
        unsafe { c::fairleadow_sum(sum, bytes.as_ptr(), length(bytes)) }
    }

    fn live_run(
        &self,
        table: &[u8],
        state: &mut State,
        words: &[u16],
        masks: &mut [u32],
        codes: &mut [u8],
    ) -> Answer {
        ran(c::fairleadow_live_run, table, state, words, masks, codes)
    }

    fn live_tick(&self, table: &[u8], state: &mut State, word: u16) -> Result<Tick, Refusal> {
        ticked(c::fairleadow_live_tick, table, state, word)
    }

    fn live_spin(
        &self,
        states: &mut [State],
        taken: &mut usize,
        spindle: usize,
        table: &[u8],
        word: u16,
    ) -> Result<Tick, Refusal> {
        spun(c::fairleadow_live_spin, states, taken, spindle, table, word)
    }

    fn live_rebind(&self, table: &[u8], state: &mut State, number: usize, scheme: usize) -> Answer {
        rebound(c::fairleadow_live_rebind, table, state, number, scheme)
    }

    fn meaning(&self, code: u8) -> Meaning {
        let mut called = 0;
        // SAFETY: the number called is a place of this function.
        match unsafe { c::fairleadow_meaning(code, &mut called) } as u8 {
            0 => Meaning::Plain,
            1 => Meaning::OperationCall(called),
            2 => Meaning::FunctionCall(called),
            3 => Meaning::Return,
            4 => Meaning::Home,
            5 => Meaning::Drop,
            _ => Meaning::Unknown,
        }
    }
}

//! The entry points as a trait on plain Rust types, and what they answer. The proved library and the reference both
//! have this interface, so that they can be compared, and neither needs the other.

#![no_std]

#[cfg(test)]
extern crate std;

mod refusal;
mod sizes;
mod told;

pub use refusal::Refusal;
pub use sizes::*;
pub use told::{handed, told, Told};

/// The version of the entry points, as the header and the archive have it.
pub const VERSION: u32 = 3;

/// The release that the crates are of, whose middle number is the version.
pub const RELEASE: &str = env!("CARGO_PKG_VERSION");

/// The machine's state, with the fields of the C struct. Places hold labels, the bottom first; number h's result bit is
/// `results[h - 1]`, and the scheme that serves it `serving[h - 1]` (that of number 1, which nothing calls, is kept and not tried). For
/// each place in use there is the number of the call that filled it, and the scheme open there. All three are 0 above the depth.
#[derive(Clone, Copy, Debug, PartialEq, Eq)]
pub struct State {
    pub size: u8,
    pub depth: u8,
    pub places: [u8; PLACES],
    pub results: [bool; SCHEMES],
    pub serving: [u8; SCHEMES],
    pub numbers: [u8; PLACES],
    pub servers: [u8; PLACES],
}

impl State {
    /// Every number 0.
    pub const NONE: State = State {
        size: 0,
        depth: 0,
        places: [0; PLACES],
        results: [false; SCHEMES],
        serving: [0; SCHEMES],
        numbers: [0; PLACES],
        servers: [0; PLACES],
    };
}

/// What most calls answer: a count, or why they refuse.
pub type Answer = Result<usize, Refusal>;

/// What a finished tick gives: the mask that it emits, and its code.
#[derive(Clone, Copy, Debug, PartialEq, Eq)]
pub struct Tick {
    pub mask: u32,
    pub code: u8,
}

/// A price list: the price of each micro operation, that of mask bit 0 first, in hundredths of a cent a tick.
pub type Prices = [u16; OPERATIONS];

/// What a priced run answers, and the price of its finished ticks in cents, 0 with a refusal other than 17 and 18.
#[derive(Clone, Copy, Debug, PartialEq, Eq)]
pub struct PricedReport {
    pub answer: Answer,
    pub price: u64,
}

/// What made a tick go where it went: the row taken, told by its number among the image's rows (0 is the first); a mask of conditions that
/// decide on it; and the result bit of the number called where the label is a function call's, else 2.
#[derive(Clone, Copy, Debug, PartialEq, Eq)]
pub struct Cause {
    pub row: u16,
    pub mask: u16,
    pub bit: u8,
}

/// Of all lists of words that were tried, how many come to which end.
#[derive(Clone, Copy, Debug, Default, PartialEq, Eq)]
pub struct Fillings {
    /// Those that come to their end.
    pub ended: u32,
    /// Those that are stopped by [`Refusal::Full`].
    pub full: u32,
    /// Those that are stopped by [`Refusal::NoRow`]; none on an image that the translator wrote.
    pub unmatched: u32,
}

/// What a tick's code stands for; a call has the number called, a Drop is a call that finds the stack full and starts the
/// handler instead, and Unknown is a code that no tick has.
#[derive(Clone, Copy, Debug, PartialEq, Eq)]
pub enum Meaning {
    Plain,
    OperationCall(u8),
    FunctionCall(u8),
    Return,
    Home,
    Drop,
    Unknown,
}

/// The entry points of papers 01 and 02, those for a controller that keeps an image prepared, and the dry run of a chart's text. Counts
/// are records, characters, labels, bytes of a table, ticks and places; an accepted image or table and a rebinding count 0. A refusal
/// leaves states and buffers as they were but for what the call says: a run that 17 or 18 stops has made the ticks before, so that the
/// state is the one after them and their masks and codes are written.
pub trait Library {
    /// Chart lines to node records of ten bytes each. Tries 1 to 9, with 19 after 5, and 16; counts records.
    fn read_chart(&self, text: &[u8], out: &mut [u8]) -> Answer;

    /// Node records to chart lines. Tries 1, 4 to 9, with 19 after 5, and 16; counts characters.
    fn write_chart(&self, records: &[u8], out: &mut [u8]) -> Answer;

    /// Chart lines to the image's lines. Tries 1 to 10, with 19 after 5, and 16; counts characters.
    fn translate(&self, text: &[u8], out: &mut [u8]) -> Answer;

    /// How many places a chart's calls need at most, 1 to 16: as many as there are schemes in the longest chain of calls that begins at
    /// scheme 1, which counts. With so many or more, from a fresh state, no call gets 17 or drops, as long as every number is served by
    /// its own scheme. Tries 1 to 10, with 19 after 5, and 20; counts places.
    fn places(&self, text: &[u8]) -> Answer;

    /// Whether an image is in order. Tries 1 to 3 and 11 to 13.
    fn check_image(&self, text: &[u8]) -> Answer;

    /// A fresh state for a stack of so many places. Tries 14.
    fn fresh(&self, size: usize) -> Result<State, Refusal>;

    /// One tick a word on a lent state, with its mask and its code. Tries all of the image check, then 15 to 18; counts ticks.
    fn run(
        &self,
        image: &[u8],
        state: &mut State,
        words: &[u16],
        masks: &mut [u32],
        codes: &mut [u8],
    ) -> Answer;

    /// A chart run from its text: the image that `translate` makes of it, and a run on that from a fresh state of so many places. Once the
    /// chart is translated the image is there, whatever is refused then. Tries 1 to 10, with 19 after 5, and 16 for the image, then 14,
    /// then 16 for masks and codes, and 17; counts ticks.
    fn dry_run(
        &self,
        text: &[u8],
        size: usize,
        image: &mut [u8],
        words: &[u16],
        masks: &mut [u32],
        codes: &mut [u8],
    ) -> Answer;

    /// A run, and its price: the prices of all set bits of the masks of its finished ticks, summed and divided by 100 once, halves
    /// upward. Tries what the image check tries, then 15, 27 for more than 65,536 words, and 16 to 18; counts ticks.
    fn priced_run(
        &self,
        image: &[u8],
        state: &mut State,
        prices: &Prices,
        words: &[u16],
        masks: &mut [u32],
        codes: &mut [u8],
    ) -> PricedReport;

    /// One tick of a lent state: what a run of one word does. A refused tick changes nothing.
    fn tick(&self, image: &[u8], state: &mut State, word: u16) -> Result<Tick, Refusal> {
        let (mut masks, mut codes) = ([0], [0]);
        self.run(image, state, &[word], &mut masks, &mut codes)?;
        Ok(Tick { mask: masks[0], code: codes[0] })
    }

    /// One tick of a spindle by its own image: the four states stand in one list, and `taken` is how many places they have taken
    /// together, 4 at first, of 64. Of the other three only the depths are read. Tries 25, what the image check tries, 15, which is
    /// also given where the list is not of four states, or their depths do not sum to `taken`, or that is above 64, then 17, 26 and
    /// 18. A refused tick changes nothing.
    fn spin(
        &self,
        states: &mut [State],
        taken: &mut usize,
        spindle: usize,
        image: &[u8],
        word: u16,
    ) -> Result<Tick, Refusal>;

    /// From now on a call of this number opens this scheme, under the number called; schemes that are open go on as they are. Tries what
    /// the image check tries, then 15 and 22; counts 0.
    fn rebind(&self, image: &[u8], state: &mut State, number: usize, scheme: usize) -> Answer;

    /// The cause of the tick that a state would make: every word that agrees with this one on the mask takes the same row. Tries
    /// what the image check tries, then 15, 21 and 18.
    fn cause(&self, image: &[u8], state: &State, word: u16) -> Result<Cause, Refusal>;

    /// For each label of an image, from 0 on, the number of its first row among the image's rows, from 0, and how many rows it has;
    /// 0 and 0 where it has none. Tries what the image check tries, then 16, for either buffer; counts labels.
    fn list_rows(&self, image: &[u8], firsts: &mut [u16], counts: &mut [u16]) -> Answer;

    /// An image's lines to those of the image with its alike labels joined, which ticks as it does. Tries what the image check tries,
    /// then 23 and 16; counts characters.
    fn minimise(&self, image: &[u8], out: &mut [u8]) -> Answer;

    /// A little chart's lines, by how many frames it has and its number, from 0, among those of as many, in the order of their texts.
    /// These are all accepted charts that have one scheme in 2 to 4 frames and, besides Begin and End, only operations of mask 0 or 1
    /// and no result, and conditions of number 0. Tries 24 and 16; counts characters.
    fn little_chart(&self, frames: usize, number: usize, text: &mut [u8]) -> Answer;

    /// How often the stack fills: of all lists of so many words, in which only conditions from 0 up, so many, are ever 1, those that run to
    /// their end, those that get 17 and those that get 18, each from a fresh state of so many places. No words is one empty list, and no
    /// conditions is one list of zeros; together the three are 2 to the power of ticks times conditions. Tries what the image check tries,
    /// then 14 and 28: ticks times conditions above 16, or more than 16 conditions, or more than 65,536 ticks.
    fn count_fillings(
        &self,
        image: &[u8],
        size: usize,
        ticks: usize,
        conditions: usize,
    ) -> Result<Fillings, Refusal>;

    /// An image's lines to the table that live runs and live ticks take. Tries what the image check tries, then 16;
    /// counts bytes.
    fn prepare(&self, image: &[u8], table: &mut [u8]) -> Answer;

    /// Whether a table, without anything behind it, is exactly what the preparation writes for some image. Tries 11 to 13, and then 13 of
    /// the notes.
    fn check_table(&self, table: &[u8]) -> Answer;

    /// The CRC-32 (ISO-HDLC) of bytes behind those whose sum is `sum`; 0 to begin with.
    fn sum(&self, sum: u32, bytes: &[u8]) -> u32;

    /// A run on a table; on one that was prepared from an image it is the run on that image. The table may be followed by
    /// anything, and any bytes are answered for. Tries 11, then 15 to 18; counts ticks.
    fn live_run(
        &self,
        table: &[u8],
        state: &mut State,
        words: &[u16],
        masks: &mut [u32],
        codes: &mut [u8],
    ) -> Answer;

    /// One tick on a table: what a live run of one word does. A refused tick changes nothing.
    fn live_tick(&self, table: &[u8], state: &mut State, word: u16) -> Result<Tick, Refusal> {
        let (mut masks, mut codes) = ([0], [0]);
        self.live_run(table, state, &[word], &mut masks, &mut codes)?;
        Ok(Tick { mask: masks[0], code: codes[0] })
    }

    /// One tick of a spindle by its own table: what one by its image does. Tries 25, 11, 15, 17, 26 and 18.
    fn live_spin(
        &self,
        states: &mut [State],
        taken: &mut usize,
        spindle: usize,
        table: &[u8],
        word: u16,
    ) -> Result<Tick, Refusal>;

    /// A rebinding by a table: what a rebinding by its image does. Tries 11, 15 and 22; counts 0.
    fn live_rebind(&self, table: &[u8], state: &mut State, number: usize, scheme: usize) -> Answer;

    fn meaning(&self, code: u8) -> Meaning;
}

//! Fairleadow: charts of a lathe's cycle, read, translated to a table and run tick by tick, by a library that is proved.
//!
//! ```
//! use fairleadow::{Chart, Image, Machine, Table};
//!
//! # fn main() -> Result<(), fairleadow::Refusal> {
//! let chart = Chart::parse("00010001000000000000FE\n02010002000000000001FA\n01010000000000000000FE\n")?;
//! let table = Table::of(&Image::of(&chart)?)?;
//! let mut machine = Machine::fresh(table, chart.places()?)?;
//! for word in [0x0000, 0x0001, 0x0000] {
//!     let tick = machine.tick(word)?;
//!     println!("outputs {:08X}: {:?}", tick.mask, tick.meaning());
//! }
//! # Ok(())
//! # }
//! ```
//!
//! | Value | What it is | How it is had |
//! |---|---|---|
//! | [`Chart`] | lines of nodes, in order | [`Chart::parse`], [`Chart::of_records`], [`Chart::little`] |
//! | [`Image`] | the machine's table as lines, to store and send | [`Image::of`] a chart, [`Image::parse`] |
//! | [`Table`] | an image made ready for ticks | [`Table::of`] an image, [`Table::prepare_in`], [`Table::parse`] |
//! | [`State`] | which schemes are open, and where | [`State::fresh`], [`State::from_bytes`] |
//! | [`Machine`] | a table and a state | [`Machine::fresh`], [`Machine::with`] |
//! | [`Spindles`] | four states with one store of places | [`Spindles::fresh`], [`Spindles::with`] |
//!
//! Each is made by a call that checks; only whether a state that was stored fits is tried where it is used. What can be refused is a
//! `Result` with a [`Refusal`]. No call allocates, panics or keeps anything, and each answers for everything that it is handed. The crate
//! needs neither `std` nor `alloc`. Buffers are in the values, 30 kilobytes in an [`Image`] and 13 in a [`Table`], or are lent to the
//! functions that end in `_in`: so on a controller the image stays in flash, and the table lies where the program wants it.
//!
//! ```
//! use fairleadow::{Machine, Refusal, Table, TABLE};
//!
//! fn control(image: &[u8], buffer: &mut [u8; TABLE], words: impl Iterator<Item = u16>) -> Result<(), Refusal> {
//!     let mut machine = Machine::fresh(Table::prepare_in(image, buffer)?, 3)?;
//!     for word in words {
//!         set_outputs(machine.tick(word)?.mask);
//!     }
//!     Ok(())
//! }
//! # fn set_outputs(_: u32) {}
//! # let image = fairleadow::Image::of(&fairleadow::Chart::little(2, 0).unwrap()).unwrap();
//! # control(image.text(), &mut [0; TABLE], [0, 0].into_iter()).unwrap();
//! ```
//!
//! The numbers of refusals in the pages below are those of [`Refusal`]. The crate links the archive for the processor that it is compiled
//! for: for x86-64 Linux that of `./archive`, for others those of `controller/build`, or the one in the folder that the variable
//! `FAIRLEADOW_ARCHIVE` names. A program asks once, at its beginning, whether [`version`] is [`VERSION`].

#![no_std]
#![warn(missing_docs, clippy::must_use_candidate)]

mod buffer;
#[doc(hidden)]
#[allow(missing_docs, clippy::must_use_candidate)]
pub mod c;
mod call;
mod chart;
mod image;
mod image_looks;
mod image_runs;
mod machine;
mod spindles;
mod state;
mod table;
mod tick;

pub use buffer::Buffer;
pub use chart::Chart;
pub use image::Image;
pub use image_looks::{Cause, Listing};
pub use image_runs::Priced;
#[doc(inline)]
pub use interface::{
    Fillings, Prices, Refusal, CHART_TEXT, CONDITIONS, COUNTED_BITS, COUNTED_TICKS, FRAME, FRAMES,
    IMAGE_TEXT, LABELS, LINE, LITTLE_FRAMES, LITTLE_TEXT, NODES, OPERATIONS, PLACES, PRICED_WORDS, RECORD,
    RECORDS, RELEASE, ROWS, SCHEMES, SPINDLES, STORE, TABLE, VERSION,
};
pub use machine::Machine;
pub use spindles::Spindles;
pub use state::{State, STATE_BYTES};
pub use table::{sum, Table};
pub use tick::{meaning, Meaning, Tick};

/// The version of the archive; that of the crate is [`VERSION`]. Where they differ, one of them is to be built anew.
///
/// ```
/// assert_eq!(fairleadow::version(), fairleadow::VERSION);
/// ```
#[must_use]
pub fn version() -> u32 {
    // SAFETY: the call takes and writes nothing.
    unsafe { c::fairleadow_version() }
}

//! A plain implementation of paper 01, of the changes that paper 02 has made to it and of live ticks, for tests only. It was
//! written from the rules, not from the proved library, so that the two can be compared. It prefers the obvious way over
//! the fast one.

pub mod answer;
mod by_entry;
pub mod cause;
pub mod chart;
pub mod check;
pub mod codes;
pub mod crc;
pub mod entry;
pub mod expectation;
pub mod fillings;
pub mod frames;
pub mod image;
pub mod library;
pub mod little;
pub mod live;
pub mod machine;
pub mod minimise;
pub mod places;
pub mod prepare;
pub mod price;
pub mod programs;
pub mod row_list;
pub mod spindle_walks;
pub mod spindles;
pub mod state;
pub mod translator;
pub mod walk;

pub use answer::Answer;
pub use interface::{told, Told};
pub use library::{Cause, Fillings, Library, Meaning, PricedReport, Prices, Reference, Refusal, Tick};
pub use state::{fresh_state, State};

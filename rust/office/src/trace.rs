//! A chart run tick by tick: which node each tick stands for, what it emits, and the arcs that it takes.

pub mod arcs;
pub mod coverage;
pub mod swaps;
pub mod table;
pub mod ticks;
pub mod words;

pub use arcs::Arc;
pub use coverage::Coverage;
pub use ticks::{fresh, trace, Happening, Opened, Run, Stopped, Tick, Trace};

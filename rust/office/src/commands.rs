//! The commands, each in a file of its own.

pub mod bill;
pub mod diff;
pub mod draw;
pub mod files;
pub mod fillings;
pub mod minimise;
pub mod options;
pub mod page;
pub mod patch;
pub mod test;
pub mod trace;
pub mod translate;
pub mod wall;
pub mod watch;
pub mod why;

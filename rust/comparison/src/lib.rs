//! The comparison of a library with the reference: cases drawn from a seed (`generate`) and chosen ones (`samples`), what each call makes
//! of an input (`entry_point`), and whether a library and the reference make the same of all of them (`compare`).

pub mod compare;
pub mod entry_point;
pub mod generate;
pub mod samples;
pub mod show;

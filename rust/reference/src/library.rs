//! The reference as a library.

use crate::as_the_reference;
pub use interface::{Answer, Cause, Fillings, Library, Meaning, PricedReport, Prices, Refusal, State, Tick};

/// The reference itself.
pub struct Reference;

impl Library for Reference {
    as_the_reference!(chart_calls, image_calls, run_calls, rebindings, spins, value_calls);
}

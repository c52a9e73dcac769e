//! Two files compared: images by where their labels go, charts by their nodes, traces by their ticks.

pub mod charts;
mod cubes;
pub mod images;
pub mod search;
pub mod traces;

//! An image by its labels and rows: listed, run, drawn, and on a page, in place of a chart's nodes and arcs.

pub mod drawing;
pub mod listing;
pub mod page;
pub mod run;
pub mod table;
pub mod words;

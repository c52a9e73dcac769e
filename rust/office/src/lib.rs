//! The office program: charts composed, shown, checked, traced, drawn, priced and asked about, stacks compared, and images patched and
//! compared. Every answer comes from the proved library. What is found here besides, to tell it to people, is held to that answer where
//! it is told: labels to the image, arcs to the state, a chain or a circle of calls to the places, a reason to the refusal. Where they
//! differ an internal error is told in its place. Interlocks are decided over the library's image and tried on its machine. The warnings
//! of `check` are this program's own, and no answer of the library's stands behind them.

pub mod bill;
pub mod calls;
pub mod chart;
pub mod check;
pub mod columns;
pub mod command;
pub mod completion;
pub mod compose;
pub mod diff;
pub mod draw;
pub mod escape;
pub mod explain;
pub mod fillings;
pub mod formats;
pub mod image;
pub mod interlocks;
pub mod kind;
pub mod labels;
pub mod manual;
pub mod marking;
pub mod names;
pub mod notation;
pub mod other;
pub mod page;
pub mod patch;
pub mod places;
pub mod plan;
pub mod printed;
pub mod problem;
pub mod scenario;
pub mod source;
pub mod subject;
pub mod trace;
pub mod usage;
pub mod verdicts;
pub mod why;
pub mod wording;

// what takes arguments and files from a machine, which a browser has not
#[cfg(not(target_arch = "wasm32"))]
pub mod arguments;
#[cfg(not(target_arch = "wasm32"))]
pub mod commands;
#[cfg(not(target_arch = "wasm32"))]
pub mod output;

//! What the workbench's page asks the office program: a chart checked and drawn, a run made of it tick by tick, and what is told of
//! that. The answers are the office program's own; what is added here is the drawing's layout and the form in which a page takes them.

mod bench;
mod compare;
mod drawing;
#[cfg(target_arch = "wasm32")]
mod exports;
mod layout;
mod piece;
mod seek;
mod told;

pub use bench::Bench;
pub use office::formats::json::Json;
pub use seek::Event;

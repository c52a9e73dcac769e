//! crates.txt as a picture: areas as boxes with their crates inside, each above all that it stands on.

mod areas;
mod layout;
mod picture;

pub use areas::areas;
pub use picture::drawn;

//! Draws crates.txt anew as docs/pictures/crates.svg. tests/architecture holds the picture to it.

use std::fs;
use std::io;

use pages::{read, root};

mod drawing;

fn main() -> io::Result<()> {
    let list = read("crates.txt");
    fs::write(root().join("docs/pictures/crates.svg"), drawing::drawn(&drawing::areas(&list)))
}

//! How often the stack fills, counted over as many lists as there may be: many ticks of one condition, few of many, and one long list; on
//! chart P, and on images whose ticks look at many rows; on the largest stack.

use std::hint::black_box;

use comparison::samples::{chart_p, largest_image, one_label, rows_that_match_from_home, with_handler};
use fast::Fast;
use proved::{Proved, PLACES};
use reference::entry::translated;
use reference::frames::{text_of, Frame};
use reference::Library;

use crate::measure::{keep, Call, Line};

const LISTS: [(usize, usize); 5] = [(16, 1), (8, 2), (4, 4), (1, 16), (65_536, 0)];

fn images() -> Vec<(&'static str, Vec<u8>)> {
    let image = |records: &[Frame]| translated(&text_of(records)).expect("a valid chart");
    vec![
        ("chart P", image(&chart_p())),
        ("a handler", image(&with_handler())),
        ("one label, 1,024 rows", image(&one_label())),
        ("largest image", text_of(&largest_image())),
        ("1,024 rows that match", text_of(&rows_that_match_from_home().frames())),
    ]
}

fn side(library: &'static dyn Library, image: Vec<u8>, (ticks, conditions): (usize, usize)) -> Call {
    Box::new(move || keep(library.count_fillings(black_box(&image), PLACES, ticks, conditions)))
}

pub fn lines() -> Vec<Line> {
    let mut lines = Vec::new();
    for (name, image) in images() {
        for lists in LISTS {
            let (ticks, conditions) = lists;
            lines.push(Line {
                name: format!("{name} | {ticks} ticks, {conditions} conditions"),
                sides: vec![side(&Proved, image.clone(), lists), side(&Fast, image.clone(), lists)],
            });
        }
    }
    lines
}

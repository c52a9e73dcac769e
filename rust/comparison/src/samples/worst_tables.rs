//! Tables that no preparation makes, for live calls: by the places that are noted in them, a label's rows are all frames of
//! the table, the header's too.

use super::worst::WORDS;
use super::worst_images::full_stack;
use reference::frames::Frame;
use reference::image::{FUNCTION_CALL, PLAIN};
use reference::live::Held;
use reference::state::State;

/// A call of scheme 2, of that scheme; a plain label of scheme 1; and a call of scheme 2 by scheme 1.
const CALLS: u8 = 2;
const GOES_ON: u8 = 4;
const BOTTOM: u8 = 6;
/// The bit of a word that decides between the last two rows.
const DECIDES: u8 = 4;

/// Each even label's rows begin at frame 0 and end with the table. Taken as rows, nearly all frames match words without any other
/// bit than DECIDES, the rows among them with fifteen ones each and for result bit 0 alone, and lead nowhere. The last two have sixteen: on a word without it
/// the last but one leads to a return, on a word with it the last one to the plain label.
fn whole_table_rows() -> Vec<Frame> {
    let mut frames = vec![[15, 16, 255, 4, 0, 0, 2, 0, 0, 0]];
    frames.extend((1..=16).map(|scheme| [16, scheme, 0, 0, 0, 0, 2, 0, 0, 0]));
    frames.extend((0..=255u8).map(|label| {
        let note = if label % 2 == 0 { 0xFF } else { 0 };
        match label {
            CALLS => [note, note, FUNCTION_CALL, 2, 2, 0, 2, 0, 0, 0],
            GOES_ON => [note, note, PLAIN, 0, 1, 0, 2, 0, 0, 0],
            BOTTOM => [note, note, FUNCTION_CALL, 2, 1, 0, 2, 0, 0, 0],
            _ => [note, note, PLAIN, 0, 0, 0, 2, 0, 0, 0],
        }
    }));
    frames.extend([[18, 0, 255, !DECIDES, 0, 0, 0, 0, 0, 0]; 1022]);
    frames.push([18, 0, 255, 255, 0, 0, 2, 1, 0, 0]);
    frames.push([18, 0, 255, 255, 0, DECIDES, 2, GOES_ON, 0, 0]);
    frames
}

type Ticks = (&'static str, Vec<Frame>, State, Vec<u16>);

pub fn worst_tables() -> Vec<Ticks> {
    let held = Held::of(&whole_table_rows().concat()).expect("a table");
    let deep = full_stack(held.shape(), BOTTOM, CALLS);
    let decided = u16::from(DECIDES);
    // thirty-one returns, the last of which goes on at the plain label
    let words = (0..WORDS).map(|k| if k < 30 { 0 } else { decided }).collect();
    let plain = State { results: [true; 16], ..held.shape().state(32, &[GOES_ON]) };
    vec![
        ("deep return over a whole table", whole_table_rows(), deep, words),
        ("plain tick over a whole table", whole_table_rows(), plain, vec![decided; WORDS]),
    ]
}

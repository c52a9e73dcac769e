//! Long runs with prices: the library's priced run, its run of the same words, and a priced run in plain Rust.

use std::cell::RefCell;
use std::hint::black_box;
use std::rc::Rc;

use comparison::samples::{self, words};
use fast::Fast;
use proved::Proved;
use reference::entry::{image_from_text, translated};
use reference::frames::text_of;
use reference::{fresh_state, Answer, Library, Prices, State};

use crate::measure::{Call, Line};
use crate::texts::charts;

/// How many words a run has.
const WORDS: usize = 65_536;

pub const SIDES: [&str; 3] = ["Library, priced", "Library, not priced", "Plain Rust, priced"];

/// What a run tells of itself: its answer, and a price where it has one.
type Run = fn(&[u8], &mut Room) -> (Answer, u64);

/// A fresh state's words, prices, and the buffers that all sides write.
struct Room {
    state: State,
    prices: Prices,
    words: Vec<u16>,
    masks: Vec<u32>,
    codes: Vec<u8>,
}

fn priced(library: &dyn Library, image: &[u8], room: &mut Room) -> (Answer, u64) {
    let Room { state, prices, words, masks, codes } = room;
    let priced = library.priced_run(image, &mut state.clone(), prices, words, masks, codes);
    (priced.answer, priced.price)
}

fn line(name: &str, image: Vec<u8>, room: &Rc<RefCell<Room>>) -> Line {
    let image = Rc::new(image);
    let runs: [Run; 3] = [
        |image, room| priced(&Proved, image, room),
        |image, room| {
            let Room { state, words, masks, codes, .. } = room;
            (Proved.run(image, &mut state.clone(), words, masks, codes), 0)
        },
        |image, room| priced(&Fast, image, room),
    ];
    let side = |run: Run| -> Call {
        let (image, room) = (Rc::clone(&image), Rc::clone(room));
        Box::new(move || {
            let (answer, price) = run(&image, &mut room.borrow_mut());
            assert_eq!(answer, Ok(WORDS));
            black_box(price);
        })
    };
    Line { name: format!("{name} | priced run of 65,536"), sides: runs.map(side).into_iter().collect() }
}

/// The image of a chart with every micro operation on in each of its operations.
fn all_on(image: &[u8]) -> Vec<u8> {
    let mut image = image_from_text(image).expect("an accepted image");
    image.labels[2..].iter_mut().for_each(|label| label.mask = u32::MAX);
    text_of(&image.frames())
}

pub fn lines() -> Vec<Line> {
    let image = |records: &[_]| translated(&text_of(records)).expect("a valid chart");
    let room = Room {
        state: fresh_state(32).expect("a good size"),
        prices: std::array::from_fn(|bit| 2_000 + 7 * bit as u16),
        words: words(WORDS),
        masks: vec![0; WORDS],
        codes: vec![0; WORDS],
    };
    let room = Rc::new(RefCell::new(room));
    let mut lines: Vec<Line> =
        charts().iter().map(|(name, records)| line(name, image(records), &room)).collect();
    lines.push(line("200 labels, all outputs on", all_on(&image(&samples::operations(198))), &room));
    lines
}

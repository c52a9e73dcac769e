//! Long runs on charts of 200 labels with few and with many rows: the library, plain Rust that looks through all rows in order at
//! each tick, and plain Rust that looks at the rows of one label.

use std::cell::RefCell;
use std::hint::black_box;
use std::rc::Rc;

use comparison::samples::{self, words};
use fast::run_on;
use proved::Proved;
use reference::entry::translated;
use reference::frames::{text_of, Frame};
use reference::{fresh_state, Answer, Library, State};

use crate::measure::{Call, Line};

/// How many words a run has.
const WORDS: usize = 65_536;

pub const SIDES: [&str; 3] = ["Library", "Plain Rust, all rows", "Plain Rust, rows of a label"];

type Run = fn(&[u8], &mut State, &[u16], &mut [u32], &mut [u8]) -> Answer;

/// A fresh state's words, and the buffers that all sides write.
struct Room {
    state: State,
    words: Vec<u16>,
    masks: Vec<u32>,
    codes: Vec<u8>,
}

fn line(name: &str, records: &[Frame], room: &Rc<RefCell<Room>>) -> Line {
    let image = Rc::new(translated(&text_of(records)).expect("a valid chart"));
    let runs: [Run; 3] = [
        |image, state, words, masks, codes| Proved.run(image, state, words, masks, codes),
        run_on::<true>,
        run_on::<false>,
    ];
    let side = |run: Run| -> Call {
        let (image, room) = (Rc::clone(&image), Rc::clone(room));
        Box::new(move || {
            let Room { state, words, masks, codes } = &mut *room.borrow_mut();
            let mut after = *state;
            assert_eq!(run(&image, &mut after, words, masks, codes), Ok(WORDS));
            black_box(after);
        })
    };
    Line { name: format!("{name} | run of 65,536"), sides: runs.map(side).into_iter().collect() }
}

pub fn lines() -> Vec<Line> {
    let state = fresh_state(32).expect("a good size");
    let room = Room { state, words: words(WORDS), masks: vec![0; WORDS], codes: vec![0; WORDS] };
    let room = Rc::new(RefCell::new(room));
    vec![
        line("200 labels, 198 rows", &samples::operations(198), &room),
        line("200 labels, 1,024 rows", &samples::many_rows(), &room),
    ]
}

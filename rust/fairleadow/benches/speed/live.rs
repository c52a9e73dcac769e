//! Preparing tables, live runs, live ticks, of spindles too, and live rebindings: the C functions, plain Rust that keeps its machine taken
//! apart, and plain Rust on the same table.

use std::cell::RefCell;
use std::hint::black_box;
use std::rc::Rc;

use comparison::samples::{self, words};
use fast::{Fast, Kept};
use proved::{c, IMAGE_TEXT, SPINDLES, TABLE};
use reference::entry::{self, translated};
use reference::frames::text_of;
use reference::live::Held;
use reference::{fresh_state, Library, State};

use crate::measure::{keep, Call, Line};
use crate::texts::charts;

/// An image with what is made of it, the runs to measure and the ticks: by name, each from its state by its word.
struct Input {
    name: &'static str,
    image: Vec<u8>,
    table: Vec<u8>,
    start: State,
    runs: &'static [usize],
    ticks: Vec<(&'static str, State, u16)>,
}

/// A state of 32 places with these labels of a table.
fn state(table: &[u8], places: &[u8]) -> State {
    Held::of(table).expect("a table").shape().state(32, places)
}

/// The largest image's label 2, calls of label 3 above it, and a label on the top of all 32 places.
fn full(table: &[u8], top: u8) -> State {
    let mut places = [3; 32];
    (places[0], places[31]) = (2, top);
    state(table, &places)
}

/// The deepest state that some words lead to, and the word there.
fn deepest(table: &[u8]) -> (State, u16) {
    let mut state = fresh_state(32).expect("a good size");
    let mut deepest = (state, 0);
    for word in words(2_000) {
        if state.depth > deepest.0.depth {
            deepest = (state, word);
        }
        Fast.live_tick(table, &mut state, word).expect("it is not refused");
    }
    deepest
}

/// The ticks to measure on the table of a chart.
fn ticks(name: &str, table: &[u8]) -> Vec<(&'static str, State, u16)> {
    let state = |places: &[u8]| state(table, places);
    match name {
        "chart P" => vec![
            ("live tick, home", state(&[0]), 0),
            ("live tick, call", state(&[2]), 0),
            ("live tick, plain", state(&[2, 3]), 1),
            ("live tick, return", state(&[2, 4, 1]), 1),
        ],
        "229 labels, 1,024 rows" => vec![("live tick, row 512 of 512", state(&[2]), 0x1FF)],
        "one label, 1,024 rows (B9)" => vec![
            ("live tick, row 1 of 1,024", state(&[2]), 0),
            ("live tick, row 1,024 of 1,024", state(&[2]), 0x3FF),
        ],
        "16 schemes, 256 nodes" => {
            let (state, word) = deepest(table);
            vec![("live tick, deepest", state, word)]
        }
        _ => vec![("live tick, plain", state(&[2]), 0)],
    }
}

fn prepared(image: &[u8]) -> Vec<u8> {
    let mut table = vec![0; TABLE];
    let count = entry::prepare(image, &mut table).expect("an accepted image");
    table.truncate(count);
    table
}

impl Input {
    fn of_chart(name: &'static str, image: Vec<u8>) -> Input {
        let table = prepared(&image);
        let ticks = ticks(name, &table);
        let start = fresh_state(32).expect("a good size");
        Input { name, image, table, start, runs: &[64, 65_536], ticks }
    }

    /// Its stack stays full for the 252 plain ticks from label 4 on: a short run is one at depth 32.
    fn largest() -> Input {
        let image = text_of(&samples::largest_image());
        assert_eq!(image.len(), IMAGE_TEXT);
        let table = prepared(&image);
        let ticks =
            vec![("live tick, plain", full(&table, 255), 3), ("live tick, return", full(&table, 1), 3)];
        Input { name: "largest image, depth 32", start: full(&table, 4), table, image, runs: &[64], ticks }
    }
}

/// Buffers of a run.
struct Room {
    words: Vec<u16>,
    masks: Vec<u32>,
    codes: Vec<u8>,
}

fn prepare_line(input: &Rc<Input>) -> Line {
    let [for_library, for_kept, for_table] = [0; 3].map(|_| Rc::clone(input));
    let (mut table, mut other) = (vec![0; TABLE], vec![0; TABLE]);
    let sides: Vec<Call> = vec![
        Box::new(move || {
            let (image, mut index, mut count) = (&for_library.image, 0, 0);
            // SAFETY: all that the call is handed lives here and is lent to it alone.
            black_box(unsafe {
                c::fairleadow_prepare(
                    image.as_ptr(),
                    image.len() as u64,
                    table.as_mut_ptr(),
                    table.len() as u64,
                    &mut index,
                    &mut count,
                )
            });
        }),
        Box::new(move || drop(black_box(Kept::new(&for_kept.image)))),
        Box::new(move || keep(Fast.prepare(&for_table.image, &mut other))),
    ];
    Line { name: format!("{} | prepare", input.name), sides }
}

fn run_line(input: &Rc<Input>, count: usize, room: &Rc<RefCell<Room>>) -> Line {
    let [for_library, for_kept, for_table] = [0; 3].map(|_| (Rc::clone(input), Rc::clone(room)));
    let kept = Kept::new(&input.image).expect("an accepted image");
    let sides: Vec<Call> = vec![
        Box::new(move || {
            let ((input, room), mut index, mut ticks) = (&for_library, 0, 0);
            let (mut state, mut room) = (c::State::from(&input.start), room.borrow_mut());
            // SAFETY: all that the call is handed lives here and is lent to it alone.
            black_box(unsafe {
                c::fairleadow_live_run(
                    input.table.as_ptr(),
                    input.table.len() as u64,
                    &mut state,
                    room.words.as_ptr(),
                    count as u64,
                    room.masks.as_mut_ptr(),
                    count as u64,
                    room.codes.as_mut_ptr(),
                    count as u64,
                    &mut index,
                    &mut ticks,
                )
            });
        }),
        Box::new(move || {
            let (input, room) = &for_kept;
            let Room { words, masks, codes } = &mut *room.borrow_mut();
            let mut state = input.start;
            keep((kept.run(&mut state, &words[..count], masks, codes), state));
        }),
        Box::new(move || {
            let (input, room) = &for_table;
            let Room { words, masks, codes } = &mut *room.borrow_mut();
            let mut state = input.start;
            keep((Fast.live_run(&input.table, &mut state, &words[..count], masks, codes), state));
        }),
    ];
    let count = if count == 64 { "64" } else { "65,536" };
    Line { name: format!("{} | live run of {count}", input.name), sides }
}

fn tick_line(input: &Rc<Input>, name: &str, start: State, word: u16) -> Line {
    let [for_library, for_table] = [0; 2].map(|_| Rc::clone(input));
    let kept = Kept::new(&input.image).expect("an accepted image");
    let c_start = c::State::from(&start);
    let sides: Vec<Call> = vec![
        Box::new(move || {
            let (table, mut state) = (&for_library.table, c_start);
            let (mut mask, mut code, mut index, mut count) = (0, 0, 0, 0);
            // SAFETY: all that the call is handed lives here and is lent to it alone.
            black_box(unsafe {
                c::fairleadow_live_tick(
                    table.as_ptr(),
                    table.len() as u64,
                    &mut state,
                    word,
                    &mut mask,
                    &mut code,
                    &mut index,
                    &mut count,
                )
            });
        }),
        Box::new(move || {
            let mut state = start;
            keep(kept.tick(&mut state, word));
        }),
        Box::new(move || {
            let mut state = start;
            keep(Fast.live_tick(&for_table.table, &mut state, word));
        }),
    ];
    Line { name: format!("{} | {name}", input.name), sides }
}

/// The same ticks of a spindle, the others fresh.
fn spin_line(input: &Rc<Input>, name: &str, start: State, word: u16) -> Line {
    let [for_library, for_table] = [0; 2].map(|_| Rc::clone(input));
    let kept = Kept::new(&input.image).expect("an accepted image");
    let mut states = [fresh_state(32).expect("a good size"); SPINDLES];
    states[0] = start;
    let (c_states, taken) = (states.each_ref().map(c::State::from), SPINDLES - 1 + usize::from(start.depth));
    let sides: Vec<Call> = vec![
        Box::new(move || {
            let (table, mut states, mut taken) = (&for_library.table, c_states, taken as u64);
            let (mut mask, mut code, mut index, mut count) = (0, 0, 0, 0);
            // SAFETY: all that the call is handed lives here and is lent to it alone.
            black_box(unsafe {
                c::fairleadow_live_spin(
                    states.as_mut_ptr(),
                    SPINDLES as u64,
                    &mut taken,
                    0,
                    table.as_ptr(),
                    table.len() as u64,
                    word,
                    &mut mask,
                    &mut code,
                    &mut index,
                    &mut count,
                )
            });
        }),
        Box::new(move || {
            let (mut states, mut taken) = (states, taken);
            keep(kept.spin(&mut states, &mut taken, 0, word));
        }),
        Box::new(move || {
            let (mut states, mut taken) = (states, taken);
            keep(Fast.live_spin(&mut states, &mut taken, 0, &for_table.table, word));
        }),
    ];
    Line { name: format!("{} | {}", input.name, name.replace("tick", "spin")), sides }
}

/// Number 2 to its own scheme, in the state that the runs begin with.
fn rebind_line(input: &Rc<Input>) -> Line {
    let [for_library, for_kept, for_table] = [0; 3].map(|_| Rc::clone(input));
    let kept = Kept::new(&input.image).expect("an accepted image");
    let c_start = c::State::from(&input.start);
    let sides: Vec<Call> = vec![
        Box::new(move || {
            let (table, mut state, mut index, mut count) = (&for_library.table, c_start, 0, 0);
            // SAFETY: all that the call is handed lives here and is lent to it alone.
            black_box(unsafe {
                c::fairleadow_live_rebind(
                    table.as_ptr(),
                    table.len() as u64,
                    &mut state,
                    2,
                    2,
                    &mut index,
                    &mut count,
                )
            });
        }),
        Box::new(move || {
            let mut state = for_kept.start;
            keep(kept.rebind(&mut state, 2, 2));
        }),
        Box::new(move || {
            let mut state = for_table.start;
            keep(Fast.live_rebind(&for_table.table, &mut state, 2, 2));
        }),
    ];
    Line { name: format!("{} | live rebind", input.name), sides }
}

pub fn lines() -> Vec<Line> {
    let image = |records: &[_]| translated(&text_of(records)).expect("a valid chart");
    let charts = charts();
    let charts = charts.iter().map(|(name, records)| Input::of_chart(name, image(records)));
    let room = Room { words: words(65_536), masks: vec![0; 65_536], codes: vec![0; 65_536] };
    let room = Rc::new(RefCell::new(room));
    let mut lines = Vec::new();
    for input in charts.chain([Input::largest()]).map(Rc::new) {
        lines.push(prepare_line(&input));
        lines.extend(input.ticks.iter().map(|(name, start, word)| tick_line(&input, name, *start, *word)));
        lines.extend(input.ticks.iter().map(|(name, start, word)| spin_line(&input, name, *start, *word)));
        lines.extend(input.runs.iter().map(|count| run_line(&input, *count, &room)));
        // only these have a number that can be rebound
        if matches!(input.name, "chart P" | "16 schemes, 256 nodes" | "largest image, depth 32") {
            lines.push(rebind_line(&input));
        }
    }
    lines
}

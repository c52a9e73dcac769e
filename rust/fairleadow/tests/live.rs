//! Live calls of the proved library: on prepared tables they are runs, ticks, rebindings and ticks of spindles, and each byte of chart P's
//! table at each of its values, with a handler and without, is answered for as the reference does.

use comparison::compare::live_alike;
use comparison::samples;
use proved::{Library, Proved};
use reference::entry::translated;
use reference::frames::text_of;
use reference::live::Held;
use reference::{fresh_state, Reference, State};

/// The words that each table is run with: those of the bench sheet and a few more.
const WORDS: [u16; 14] = [0, 0, 1, 0, 0, 0, 0, 0, 0xFFFF, 1, 0x8000, 1, 1, 2];

#[test]
fn live_calls_are_the_calls_on_the_image() {
    let summary = live_alike(&Proved, 2_000, 20);
    println!("answers on prepared tables:\n{summary}");
    for number in [0, 15, 16, 17, 18] {
        assert!(summary.count("live_run", number) > 0, "{summary}");
        assert!(number == 16 || summary.count("live_tick", number) > 0, "{summary}");
    }
    for number in [0, 15, 22] {
        assert!(summary.count("live_rebind", number) > 0, "{summary}");
    }
    for number in [0, 15, 17, 18, 25, 26] {
        assert!(summary.count("live_spin", number) > 0, "{summary}");
    }
}

fn table_p() -> Vec<u8> {
    let image = translated(&text_of(&samples::chart_p())).expect("a valid chart");
    let mut table = vec![0; image.len() / 23 * 10];
    assert_eq!(Proved.prepare(&image, &mut table), Ok(table.len()));
    table
}

/// Chart P's table as it is, and with scheme 2 as the handler.
fn tables_p() -> [Vec<u8>; 2] {
    [0, 2].map(|handler| {
        let mut table = table_p();
        table[5] = handler;
        table
    })
}

/// Fresh, deep in calls before a plain tick, before a return, and full; then scheme 2 at the bottom before its return, alone, and
/// full.
fn starts() -> Vec<State> {
    let tables = tables_p().map(|table| Held::of(&table).expect("a table"));
    let deep = |places: &[u8], size: u8| {
        // the label at the bottom tells whether the handler is there
        let handled = usize::from(places[0] != 2);
        let mut state = tables[handled].shape().state(size, places);
        state.results = std::array::from_fn(|k| k % 3 == 1);
        state
    };
    let mut full = vec![4; 31];
    full.insert(0, 2);
    let mut returning = full.clone();
    returning[31] = 1;
    vec![
        fresh_state(3).expect("a good size"),
        deep(&[2], 1),
        deep(&[2, 4, 3], 4),
        deep(&[2, 4, 4, 1], 32),
        deep(&full, 32),
        deep(&returning, 32),
        deep(&[1], 1),
        deep(&[3], 2),
        deep(&[4, 4], 2),
    ]
}

fn hold_run(table: &[u8], state: &State) {
    let made = |library: &dyn Library| {
        let (mut masks, mut codes) = ([7; WORDS.len()], [7; WORDS.len()]);
        let mut after = *state;
        (library.live_run(table, &mut after, &WORDS, &mut masks, &mut codes), after, masks, codes)
    };
    assert_eq!(made(&Proved), made(&Reference), "{table:?} from {state:?}");
}

fn hold_rebindings(table: &[u8], state: &State) {
    for (number, scheme) in [(2, 2), (2, 1), (1, 2), (3, 2), (2, 3)] {
        let made = |library: &dyn Library| {
            let mut after = *state;
            (library.live_rebind(table, &mut after, number, scheme), after)
        };
        assert_eq!(made(&Proved), made(&Reference), "{table:?} from {state:?}, {number} to {scheme}");
    }
}

fn hold_ticks(table: &[u8], state: &State) {
    for word in [0, 1, 0xFFFF] {
        let made = |library: &dyn Library| {
            let mut after = *state;
            (library.live_tick(table, &mut after, word), after)
        };
        assert_eq!(made(&Proved), made(&Reference), "{table:?} from {state:?} by {word:04X}");
    }
}

#[test]
fn every_byte_of_the_table_of_chart_p_at_every_value() {
    let starts = starts();
    for whole in tables_p() {
        for at in 0..whole.len() {
            let mut table = whole.clone();
            for byte in 0..=255 {
                table[at] = byte;
                for state in &starts {
                    hold_run(&table, state);
                    hold_ticks(&table, state);
                    hold_rebindings(&table, state);
                }
            }
        }
    }
}

#[test]
fn every_length_of_the_table_of_chart_p() {
    for mut bytes in tables_p() {
        bytes.extend([0x12, 2, 0, 0, 0, 0, 2, 3, 0, 0].repeat(3));
        for length in 0..=bytes.len() {
            for state in &starts() {
                hold_run(&bytes[..length], state);
                hold_ticks(&bytes[..length], state);
                hold_rebindings(&bytes[..length], state);
            }
        }
    }
}

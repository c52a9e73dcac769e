//! The library's code for controllers, on an emulated board, against the reference, and its module for browsers in the board's place.
//! controller/test and workbench/test run these: BOARD names the processor, FAIRLEADOW_SEED and FAIRLEADOW_CASES choose the inputs.

use std::collections::BTreeMap;

use board::{Board, Call, Notes};
use comparison::compare::compare;
use comparison::entry_point::EntryPoint;
use comparison::samples::chart_p;
use comparison::samples::worst::candidates;
use interface::{Library, Refusal, State, PRICED_WORDS, TABLE, VERSION};
use reference::entry::translated;
use reference::frames::text_of;
use reference::{fresh_state, Reference};

const CASES: u64 = 20_000;

/// The calls, as controller/README.md names them.
const CALLS: [(Call, &str); 26] = [
    (Call::ReadChart, "read_chart"),
    (Call::WriteChart, "write_chart"),
    (Call::Translate, "translate"),
    (Call::Places, "places"),
    (Call::CheckImage, "check_image"),
    (Call::Fresh, "fresh"),
    (Call::Run, "run"),
    (Call::DryRun, "dry_run"),
    (Call::PricedRun, "priced_run"),
    (Call::Tick, "tick"),
    (Call::Cause, "cause"),
    (Call::ListRows, "list_rows"),
    (Call::Minimise, "minimise"),
    (Call::LittleChart, "little_chart"),
    (Call::CountFillings, "count_fillings"),
    (Call::Rebind, "rebind"),
    (Call::Spin, "spin"),
    (Call::Prepare, "prepare"),
    (Call::CheckTable, "check_table"),
    (Call::Sum, "sum"),
    (Call::LiveRun, "live_run"),
    (Call::LiveTick, "live_tick"),
    (Call::LiveRebind, "live_rebind"),
    (Call::LiveSpin, "live_spin"),
    (Call::Meaning, "meaning"),
    (Call::Version, "version"),
];

/// The bytes of stack of a call as the page for controllers has them for a processor.
struct Stack {
    bound: usize,
    seen: usize,
}

/// The page's table of stacks, by the names of the calls. Of the smaller code it has the budgets alone.
fn stacks(processor: &str) -> BTreeMap<String, Stack> {
    let page = concat!(env!("CARGO_MANIFEST_DIR"), "/../../controller/README.md");
    let page = std::fs::read_to_string(page).expect("the page is there");
    let cells = |line: &str| -> Vec<String> { line.split('|').map(|cell| cell.trim().to_string()).collect() };
    let mut lines = page.lines().skip_while(|line| !line.starts_with("| Call | Bound, "));
    let heads = cells(lines.next().expect("the page has a table of stacks"));
    let column = |name: &str| {
        let head =
            if processor.ends_with("-size") { "Budget".into() } else { format!("{name}, {processor}") };
        heads.iter().position(|each| *each == head).unwrap_or_else(|| panic!("there is no column {head}"))
    };
    let (bound, seen) = (column("Bound"), column("Seen"));
    let number = |cell: &str| cell.replace(',', "").parse().expect("a number of bytes");
    let stack = |row: &[String]| Stack { bound: number(&row[bound]), seen: number(&row[seen]) };
    let rows = lines.skip(1).take_while(|line| line.starts_with('|')).map(cells);
    rows.map(|row| (row[1].clone(), stack(&row))).collect()
}

fn processor() -> String {
    std::env::var("BOARD").expect("BOARD is a processor, as controller/emulate names it")
}

/// Whether a module for browsers is in the board's place, whose stack is its own and not measured.
fn is_module() -> bool {
    processor() == "wasm32"
}

fn board() -> Board<'static> {
    Board::start(&processor(), &[], &Reference).expect("the emulator starts")
}

fn setting(name: &str, otherwise: u64) -> u64 {
    match std::env::var(name) {
        Ok(value) => value.parse().unwrap_or_else(|_| panic!("{name} is no number: {value}")),
        Err(_) => otherwise,
    }
}

/// Every call was made, and none took more stack than its bound, nor, with the usual inputs, than the page has as seen.
fn hold_to_page(notes: &Notes) {
    println!(
        "{} calls were made, {} were too large; code: {} bytes",
        notes.calls, notes.too_large, notes.code
    );
    if is_module() {
        CALLS
            .iter()
            .for_each(|(call, name)| assert!(notes.deepest.contains_key(call), "{name} was never made"));
        return;
    }
    println!("deepest stack: {:?}", notes.deepest);
    let usual = ["FAIRLEADOW_SEED", "FAIRLEADOW_CASES"].iter().all(|name| std::env::var(name).is_err());
    let stacks = stacks(&processor());
    for (call, name) in CALLS {
        let deepest = *notes.deepest.get(&call).unwrap_or_else(|| panic!("{name} was never made"));
        let stack = stacks.get(name).unwrap_or_else(|| panic!("the page has no stack of {name}"));
        assert!(deepest <= stack.bound, "{name} takes {deepest} bytes of stack, above its bound");
        assert!(!usual || deepest <= stack.seen, "{name} takes {deepest} bytes of stack, more than was seen");
    }
}

fn version_and_codes(board: &Board) {
    assert_eq!(board.version(), VERSION as usize);
    for code in 0..=255 {
        assert_eq!(board.meaning(code), Reference.meaning(code), "code {code:02X}");
    }
}

#[test]
#[ignore = "needs the emulated board: controller/test"]
fn the_board_agrees_with_the_reference() {
    let board = board();
    let (seed, cases) = (setting("FAIRLEADOW_SEED", 1), setting("FAIRLEADOW_CASES", CASES));
    version_and_codes(&board);
    if let Err(difference) = compare(&board, seed, cases) {
        panic!("{difference}");
    }
    println!("\n{cases} cases from seed {seed} agree");
    let notes = board.notes();
    hold_to_page(&notes);
    assert!(notes.too_large * 100 < notes.calls, "too many calls were not made on the board");
}

/// Runs and ticks of both kinds, from a fresh state and from one deep in calls.
fn ticks(board: &Board<'static>, image: &[u8], table: &[u8]) {
    let words: Vec<u16> = (0..64u16).map(|k| k.wrapping_mul(40_503)).collect();
    let mut state = fresh_state(32).expect("32 places are allowed");
    for _ in 0..2 {
        let made = |library: &dyn Library, live: bool| {
            let (mut masks, mut codes) = (vec![0; 64], vec![0; 64]);
            let call = if live { <dyn Library>::live_run } else { <dyn Library>::run };
            let (ground, mut ran) = (if live { table } else { image }, state);
            let answer = call(library, ground, &mut ran, &words, &mut masks, &mut codes);
            let mut after = state;
            let ticked = if live {
                library.live_tick(table, &mut after, 0xFFFF)
            } else {
                library.tick(image, &mut after, 0xFFFF)
            };
            (ran, answer, masks, codes, ticked, after)
        };
        let wanted = made(&Reference, false);
        assert_eq!(made(board, false), wanted);
        assert_eq!(made(board, true), wanted);
        state = wanted.0;
    }
}

/// One word more than a priced run takes, with a fresh state and with one that does not fit, and with no room for masks and codes.
fn too_many_words(board: &Board) {
    let image = translated(&text_of(&chart_p())).expect("a valid chart");
    let words = vec![0; PRICED_WORDS + 1];
    let fresh = fresh_state(3).expect("3 is a size");
    for (state, refusal) in [(fresh, Refusal::ManyWords), (State::NONE, Refusal::Unfit)] {
        let made = |library: &dyn Library| {
            let (mut after, mut masks, mut codes) = (state, [7; 9], [7; 5]);
            let priced = library.priced_run(&image, &mut after, &[1; 32], &words, &mut masks, &mut codes);
            (priced, after, masks, codes)
        };
        let given = made(board);
        assert_eq!((given.0.answer, given.0.price), (Err(refusal), 0));
        assert_eq!(given, made(&Reference));
    }
    assert_eq!(board.notes().too_large, 0, "they are run from the flash");
}

#[test]
#[ignore = "needs the emulated board: controller/test"]
fn the_largest_inputs_keep_to_the_bounds() {
    let board = board();
    let known = board.known_stack();
    assert!(is_module() || (4_000..4_200).contains(&known), "the measure is wrong: {known}");
    version_and_codes(&board);
    too_many_words(&board);
    for entry in EntryPoint::ALL {
        for candidate in candidates(entry) {
            let made = |library: &dyn Library| entry.make(library, &candidate.input);
            assert!(made(&board) == made(&Reference), "{}, {}", entry.name(), candidate.name);
        }
    }
    for candidate in candidates(EntryPoint::Prepare) {
        let image = text_of(&candidate.input.frames);
        let mut table = [0; TABLE];
        if let Ok(length) = Reference.prepare(&image, &mut table) {
            ticks(&board, &image, &table[..length]);
        }
    }
    hold_to_page(&board.notes());
}

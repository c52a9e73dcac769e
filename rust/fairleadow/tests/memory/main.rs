//! The deepest stack use of the C functions, measured on a stack of its own that is filled with one byte first. The
//! lathe has 64 kilobytes: each call has to leave room for the chart's text and the image's, a preparation for the image's
//! text and the table, a live call for the table; a call that makes an image smaller for as much of both texts as there is room for.

mod damage;
mod dry_runs;
mod fillings;
mod little;
mod spindles;
mod stack;

use comparison::entry_point::EntryPoint;
use comparison::generate::{charts, Random};
use comparison::samples;
use comparison::samples::worst::candidates;
use proved::{c, LABELS, LINE, OPERATIONS, TABLE};
use reference::entry::translated;
use reference::frames::{text_of, Frame, CHART_TEXT, IMAGE_TEXT};
use stack::depth;

const MEMORY: usize = 65_536;
/// The words of a run: so many that the chart with a handler is left before a drop.
const WORDS: usize = 522;

struct Translation {
    chart: Vec<u8>,
    image: Vec<u8>,
    number: u8,
}

extern "C" fn translate(job: &mut Translation) {
    let (mut index, mut count) = (0, 0);
    let (chart, image) = (&job.chart, &mut job.image);
    // SAFETY: all that the call is handed lives here and is lent to it alone.
    job.number = unsafe {
        c::fairleadow_translate(
            chart.as_ptr(),
            chart.len() as u64,
            image.as_mut_ptr(),
            image.len() as u64,
            &mut index,
            &mut count,
        )
    } as u8;
}

struct Counting {
    chart: Vec<u8>,
    number: u8,
}

extern "C" fn places(job: &mut Counting) {
    let (mut index, mut count) = (0, 0);
    // SAFETY: all that the call is handed lives here and is lent to it alone.
    job.number =
        unsafe { c::fairleadow_places(job.chart.as_ptr(), job.chart.len() as u64, &mut index, &mut count) }
            as u8;
}

struct Preparation {
    image: Vec<u8>,
    table: Vec<u8>,
    number: u8,
    count: u64,
}

/// The table's place holds the smaller text.
extern "C" fn minimise(job: &mut Preparation) {
    let mut index = 0;
    let (image, smaller) = (&job.image, &mut job.table);
    // SAFETY: all that the call is handed lives here and is lent to it alone.
    job.number = unsafe {
        c::fairleadow_minimise(
            image.as_ptr(),
            image.len() as u64,
            smaller.as_mut_ptr(),
            smaller.len() as u64,
            &mut index,
            &mut job.count,
        )
    } as u8;
}

extern "C" fn prepare(job: &mut Preparation) {
    let mut index = 0;
    let (image, table) = (&job.image, &mut job.table);
    // SAFETY: all that the call is handed lives here and is lent to it alone.
    job.number = unsafe {
        c::fairleadow_prepare(
            image.as_ptr(),
            image.len() as u64,
            table.as_mut_ptr(),
            table.len() as u64,
            &mut index,
            &mut job.count,
        )
    } as u8;
}

/// Runs and ticks on an image's text or on a table.
struct Ticks {
    ground: Vec<u8>,
    state: c::State,
    words: Vec<u16>,
    masks: Vec<u32>,
    codes: Vec<u8>,
    number: u8,
}

/// A job that hands all of its words to a run.
macro_rules! run_job {
    ($name:ident, $function:path) => {
        extern "C" fn $name(job: &mut Ticks) {
            let (mut index, mut count) = (0, 0);
            // SAFETY: all that the call is handed lives here and is lent to it alone.
            job.number = unsafe {
                $function(
                    job.ground.as_ptr(),
                    job.ground.len() as u64,
                    &mut job.state,
                    job.words.as_ptr(),
                    job.words.len() as u64,
                    job.masks.as_mut_ptr(),
                    job.masks.len() as u64,
                    job.codes.as_mut_ptr(),
                    job.codes.len() as u64,
                    &mut index,
                    &mut count,
                )
            } as u8;
        }
    };
}

/// The same with prices.
extern "C" fn priced_run(job: &mut Ticks) {
    let (mut price, mut index, mut count) = (0, 0, 0);
    // SAFETY: all that the call is handed lives here and is lent to it alone.
    job.number = unsafe {
        c::fairleadow_priced_run(
            job.ground.as_ptr(),
            job.ground.len() as u64,
            &mut job.state,
            [u16::MAX; OPERATIONS].as_ptr(),
            job.words.as_ptr(),
            job.words.len() as u64,
            job.masks.as_mut_ptr(),
            job.masks.len() as u64,
            job.codes.as_mut_ptr(),
            job.codes.len() as u64,
            &mut price,
            &mut index,
            &mut count,
        )
    } as u8;
}

/// A job that hands its first word to a tick.
macro_rules! tick_job {
    ($name:ident, $function:path) => {
        extern "C" fn $name(job: &mut Ticks) {
            let (mut index, mut count) = (0, 0);
            // SAFETY: all that the call is handed lives here and is lent to it alone.
            job.number = unsafe {
                $function(
                    job.ground.as_ptr(),
                    job.ground.len() as u64,
                    &mut job.state,
                    job.words[0],
                    &mut job.masks[0],
                    &mut job.codes[0],
                    &mut index,
                    &mut count,
                )
            } as u8;
        }
    };
}

extern "C" fn cause(job: &mut Ticks) {
    let (mut row, mut mask, mut bit, mut index, mut count) = (0, 0, 0, 0, 0);
    // SAFETY: all that the call is handed lives here and is lent to it alone.
    job.number = unsafe {
        c::fairleadow_cause(
            job.ground.as_ptr(),
            job.ground.len() as u64,
            &job.state,
            job.words[0],
            &mut row,
            &mut mask,
            &mut bit,
            &mut index,
            &mut count,
        )
    } as u8;
}

/// A job that rebinds number 2 to its own scheme.
macro_rules! rebind_job {
    ($name:ident, $function:path) => {
        extern "C" fn $name(job: &mut Ticks) {
            let (mut index, mut count) = (0, 0);
            // SAFETY: all that the call is handed lives here and is lent to it alone.
            job.number = unsafe {
                $function(
                    job.ground.as_ptr(),
                    job.ground.len() as u64,
                    &mut job.state,
                    2,
                    2,
                    &mut index,
                    &mut count,
                )
            } as u8;
        }
    };
}

struct Listing {
    image: Vec<u8>,
    firsts: [u16; LABELS],
    counts: [u16; LABELS],
    number: u8,
}

extern "C" fn list_rows(job: &mut Listing) {
    let (mut index, mut count) = (0, 0);
    // SAFETY: all that the call is handed lives here and is lent to it alone.
    job.number = unsafe {
        c::fairleadow_list_rows(
            job.image.as_ptr(),
            job.image.len() as u64,
            job.firsts.as_mut_ptr(),
            LABELS as u64,
            job.counts.as_mut_ptr(),
            LABELS as u64,
            &mut index,
            &mut count,
        )
    } as u8;
}

run_job!(run, c::fairleadow_run);
run_job!(live_run, c::fairleadow_live_run);
tick_job!(tick, c::fairleadow_tick);
tick_job!(live_tick, c::fairleadow_live_tick);
rebind_job!(rebind, c::fairleadow_rebind);
rebind_job!(live_rebind, c::fairleadow_live_rebind);

/// Large charts, those with the longest paths, slow ones, most of which are refused, one with a handler, and random ones.
fn worst_charts() -> Vec<Vec<Frame>> {
    let samples = samples::named_charts().into_iter().map(|(_, records)| records);
    let random = (0..300).map(|seed| charts::chart(&mut Random::new(seed)));
    samples.chain([samples::with_handler()]).chain(random).collect()
}

fn fresh(size: usize) -> c::State {
    let (mut index, mut count) = (0, 0);
    let mut state = c::State::NONE;
    // SAFETY: all that the call is handed lives here and is lent to it alone.
    unsafe { c::fairleadow_fresh(size as u64, &mut state, &mut index, &mut count) };
    state
}

fn ticks(ground: Vec<u8>) -> Ticks {
    let state = fresh(32);
    let words = (0..WORDS as u16).map(|k| k.wrapping_mul(40_503)).collect();
    Ticks { ground, state, words, masks: vec![0; WORDS], codes: vec![0; WORDS], number: 0 }
}

#[test]
fn a_translation_fits_beside_both_texts() {
    let mut deepest = 0;
    for records in worst_charts() {
        let mut job = Translation { chart: text_of(&records), image: vec![0; IMAGE_TEXT], number: 0 };
        deepest = deepest.max(depth(&mut job, translate));
        assert!(matches!(job.number, 0 | 8 | 9 | 10));
    }
    println!("translate: {deepest} bytes of stack");
    assert!(CHART_TEXT + IMAGE_TEXT + deepest < MEMORY, "translate takes {deepest} bytes of stack");
}

#[test]
fn a_count_of_places_fits_beside_both_texts() {
    let mut deepest = 0;
    for records in worst_charts() {
        let mut job = Counting { chart: text_of(&records), number: 0 };
        deepest = deepest.max(depth(&mut job, places));
        assert!(matches!(job.number, 0 | 8 | 9 | 10 | 20));
    }
    println!("places: {deepest} bytes of stack");
    assert!(CHART_TEXT + IMAGE_TEXT + deepest < MEMORY, "places takes {deepest} bytes of stack");
}

/// The images of all charts that translate, and the largest.
fn worst_images() -> Vec<Vec<u8>> {
    let charts = worst_charts();
    let translated = charts.iter().filter_map(|records| translated(&text_of(records)).ok());
    translated.chain([text_of(&samples::largest_image())]).collect()
}

/// The deepest of a run and of a tick over these grounds, each from a fresh state.
fn deepest(
    grounds: &[Vec<u8>],
    run: extern "C" fn(&mut Ticks),
    tick: extern "C" fn(&mut Ticks),
) -> [usize; 2] {
    let (mut deepest, mut drops) = ([0; 2], false);
    for ground in grounds {
        let mut job = ticks(ground.clone());
        deepest[0] = deepest[0].max(depth(&mut job, run));
        assert!(matches!(job.number, 0 | 17));
        // the state is deep in calls now where there are any
        deepest[1] = deepest[1].max(depth(&mut job, tick));
        assert!(matches!(job.number, 0 | 17));
        drops |= job.codes[0] == 0x60;
        let mut job = ticks(job.ground);
        deepest[1] = deepest[1].max(depth(&mut job, tick));
        assert_eq!(job.number, 0);
    }
    assert!(drops, "no tick dropped the stack");
    deepest
}

#[test]
fn a_run_and_a_tick_fit_beside_both_texts() {
    let [run, tick] = deepest(&worst_images(), run, tick);
    println!("run: {run} bytes of stack, tick: {tick}");
    assert!(CHART_TEXT + IMAGE_TEXT + run.max(tick) < MEMORY, "run takes {run}, tick {tick}");
}

#[test]
fn a_priced_run_fits_beside_both_texts() {
    let [run, _] = deepest(&worst_images(), priced_run, tick);
    println!("priced run: {run} bytes of stack");
    assert!(CHART_TEXT + IMAGE_TEXT + run < MEMORY, "a priced run takes {run} bytes of stack");
}

/// Of a tick that takes a row and of one that takes none.
#[test]
fn a_cause_fits_beside_both_texts() {
    let (mut deepest, mut answered) = (0, [false; 2]);
    for image in worst_images() {
        let mut job = ticks(image);
        for _ in 0..3 {
            deepest = deepest.max(depth(&mut job, cause));
            assert!(matches!(job.number, 0 | 21));
            answered[usize::from(job.number == 21)] = true;
            tick(&mut job);
        }
    }
    println!("cause: {deepest} bytes of stack");
    assert_eq!(answered, [true; 2]);
    assert!(CHART_TEXT + IMAGE_TEXT + deepest < MEMORY, "cause takes {deepest} bytes of stack");
}

/// The deepest of a rebinding over these grounds, from a fresh state and from one deep in calls; some are made, some refused.
fn deepest_rebinding(
    grounds: &[Vec<u8>],
    tick: extern "C" fn(&mut Ticks),
    rebind: extern "C" fn(&mut Ticks),
) -> usize {
    let (mut deepest, mut answered) = (0, [false; 2]);
    for ground in grounds {
        let mut job = ticks(ground.clone());
        for _ in 0..4 {
            deepest = deepest.max(depth(&mut job, rebind));
            assert!(matches!(job.number, 0 | 22));
            answered[usize::from(job.number == 22)] = true;
            tick(&mut job);
        }
    }
    assert_eq!(answered, [true; 2]);
    deepest
}

#[test]
fn a_rebinding_fits_beside_both_texts() {
    let deepest = deepest_rebinding(&worst_images(), tick, rebind);
    println!("rebind: {deepest} bytes of stack");
    assert!(CHART_TEXT + IMAGE_TEXT + deepest < MEMORY, "rebind takes {deepest} bytes of stack");
}

#[test]
fn a_list_of_rows_fits_beside_both_texts() {
    let mut deepest = 0;
    for image in worst_images() {
        let mut job = Listing { image, firsts: [0; LABELS], counts: [0; LABELS], number: 0 };
        deepest = deepest.max(depth(&mut job, list_rows));
        assert_eq!(job.number, 0);
    }
    println!("list of rows: {deepest} bytes of stack");
    let lists = 4 * LABELS;
    assert!(
        CHART_TEXT + IMAGE_TEXT + lists + deepest < MEMORY,
        "a list of rows takes {deepest} bytes of stack"
    );
}

#[test]
fn a_preparation_fits_beside_the_image_and_its_table() {
    let mut deepest = 0;
    for image in worst_images() {
        let mut job = Preparation { image, table: vec![0; TABLE], number: 0, count: 0 };
        deepest = deepest.max(depth(&mut job, prepare));
        assert_eq!(job.number, 0);
    }
    println!("prepare: {deepest} bytes of stack");
    assert!(IMAGE_TEXT + TABLE + deepest < MEMORY, "prepare takes {deepest} bytes of stack");
}

/// The lines of an image for which controller/README.md promises room for both texts.
const BOTH: usize = 1_090;

/// The images that keep the joining of labels busy, and those of charts. Beside the longest text there is no room for a second one, so
/// the image is in flash then; both texts fit up to some length.
#[test]
fn a_joining_fits_beside_the_longest_smaller_image_or_two_shorter_texts() {
    let joined = candidates(EntryPoint::Minimise).into_iter().map(|one| text_of(&one.input.frames));
    let (mut deepest, mut answered) = (0, [false; 2]);
    for image in worst_images().into_iter().chain(joined) {
        let mut job = Preparation { image, table: vec![0; IMAGE_TEXT], number: 0, count: 0 };
        deepest = deepest.max(depth(&mut job, minimise));
        answered[usize::from(job.number != 0)] = true;
    }
    assert_eq!(answered, [true; 2]);
    println!(
        "minimise: {deepest} bytes of stack; texts of up to {} lines fit twice",
        (MEMORY - deepest) / 2 / LINE
    );
    assert!(IMAGE_TEXT + deepest < MEMORY, "minimise takes {deepest} bytes of stack");
    assert!(2 * BOTH * LINE + deepest < MEMORY, "beside two texts minimise takes {deepest} bytes of stack");
}

/// The tables of all images that translate.
fn worst_tables() -> Vec<Vec<u8>> {
    let table = |image: Vec<u8>| {
        let mut job = Preparation { image, table: vec![0; TABLE], number: 0, count: 0 };
        prepare(&mut job);
        job.table.truncate(job.count as usize);
        job.table
    };
    worst_images().into_iter().map(table).collect()
}

#[test]
fn a_live_rebinding_fits_beside_a_table() {
    let deepest = deepest_rebinding(&worst_tables(), live_tick, live_rebind);
    println!("live rebind: {deepest} bytes of stack");
    assert!(TABLE + deepest < MEMORY, "live rebind takes {deepest} bytes of stack");
}

#[test]
fn a_live_run_and_a_live_tick_fit_beside_a_table() {
    let [run, tick] = deepest(&worst_tables(), live_run, live_tick);
    println!("live run: {run} bytes of stack, live tick: {tick}");
    assert!(TABLE + run.max(tick) < MEMORY, "a live run takes {run}, a live tick {tick}");
}

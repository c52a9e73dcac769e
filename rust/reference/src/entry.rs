//! The entry points: which refusals each tries, in order, and what it writes.

use crate::answer::{refuse_if, Answer, Refusal};
use crate::cause::cause_of;
use crate::chart::Chart;
use crate::check::chart_of;
pub use crate::codes::meaning;
pub use crate::crc::sum;
use crate::expectation::{expected, Run, Step};
use crate::fillings::{counts, too_many};
use crate::frames::{frames_of, text_of, Frame, CHART_TEXT, IMAGE_TEXT, RECORDS};
use crate::image::{self, Image};
use crate::little;
use crate::live::Held;
use crate::machine::{self, Advanced};
use crate::minimise::{joined, uneven};
use crate::places::longest_chain;
use crate::prepare::{prepared, table_of};
use crate::price::{price, Prices, PRICED_WORDS};
use crate::row_list::row_list;
use crate::spindles::Head;
use crate::state::{can_rebind, fresh_state, Shape, State};
use crate::translator;
use interface::{Cause, Fillings, PricedReport, Tick, SPINDLES};

/// Writes all of it, or refuses with 16 and writes nothing.
fn put<T: Copy>(all: &[T], out: &mut [T]) -> Result<(), Refusal> {
    refuse_if(Refusal::NoRoom, out.len() < all.len())?;
    out[..all.len()].copy_from_slice(all);
    Ok(())
}

/// Writes all characters of a text or all bytes of a table, and counts them, or refuses.
fn written(all: Result<impl AsRef<[u8]>, Refusal>, out: &mut [u8]) -> Answer {
    let all = all?;
    put(all.as_ref(), out)?;
    Ok(all.as_ref().len())
}

/// The chart of a text, with its records: refusals 1 to 9.
fn chart_and_records(text: &[u8]) -> Result<(Chart, Vec<Frame>), Refusal> {
    let records = frames_of(text, CHART_TEXT)?;
    Ok((chart_of(&records)?, records))
}

/// The chart of a text: refusals 1 to 9.
pub fn chart_from_text(text: &[u8]) -> Result<Chart, Refusal> {
    Ok(chart_and_records(text)?.0)
}

/// The image of an image text: refusals 1 to 3 and 11 to 13.
pub fn image_from_text(text: &[u8]) -> Result<Image, Refusal> {
    image::image_of(&frames_of(text, IMAGE_TEXT)?)
}

/// Refusals 1 to 9 and 16; counts records.
pub fn read_chart(text: &[u8], out: &mut [u8]) -> Answer {
    let (_, records) = chart_and_records(text)?;
    put(&records.concat(), out)?;
    Ok(records.len())
}

/// The records of their bytes, or refusal 1.
fn records_of(bytes: &[u8]) -> Result<Vec<Frame>, Refusal> {
    let length = bytes.len();
    refuse_if(Refusal::BadLength, length == 0 || !length.is_multiple_of(10) || length > RECORDS)?;
    let record = |r: &[u8]| Frame::try_from(r).expect("ten bytes");
    Ok(bytes.chunks(10).map(record).collect())
}

/// Refusals 1, 4 to 9 and 16; counts characters.
pub fn write_chart(bytes: &[u8], out: &mut [u8]) -> Answer {
    let text = records_of(bytes).and_then(|records| {
        chart_of(&records)?;
        Ok(text_of(&records))
    });
    written(text, out)
}

/// The image text of a chart text: refusals 1 to 10.
pub fn translated(text: &[u8]) -> Result<Vec<u8>, Refusal> {
    let image = translator::image_of(&chart_from_text(text)?)?;
    Ok(text_of(&image.frames()))
}

/// Refusals 1 to 10 and 16; counts characters.
pub fn translate(text: &[u8], out: &mut [u8]) -> Answer {
    written(translated(text), out)
}

/// Refusals 1 to 10 and 20; counts places.
pub fn places(text: &[u8]) -> Answer {
    let chart = chart_from_text(text)?;
    translator::image_of(&chart)?;
    longest_chain(&chart, 1)
}

/// Refusals 1 to 3 and 11 to 13.
pub fn check_image(text: &[u8]) -> Answer {
    image_from_text(text).map(|_| 0)
}

/// Refusal 14.
pub fn fresh(size: usize) -> Result<State, Refusal> {
    fresh_state(size).ok_or(Refusal::BadSize)
}

/// The image, if it is accepted and the state fits: refusals 1 to 3, 11 to 13 and 15.
fn image_for(text: &[u8], state: &State) -> Result<Image, Refusal> {
    let image = image_from_text(text)?;
    refuse_if(Refusal::Unfit, !machine::fits(&image, state))?;
    Ok(image)
}

/// Refuses with 16 where a buffer has less room than there are words.
fn roomy(words: &[u16], masks: &[u32], codes: &[u8]) -> Result<(), Refusal> {
    refuse_if(Refusal::NoRoom, masks.len() < words.len() || codes.len() < words.len())
}

/// Tries all of the image check, then 15 to 18; counts ticks.
pub fn run(image: &[u8], state: &mut State, words: &[u16], masks: &mut [u32], codes: &mut [u8]) -> Answer {
    let image = image_for(image, state)?;
    roomy(words, masks, codes)?;
    run_ticks(|s, word| machine::tick(&image, s, word), state, words, masks, codes)
}

/// The chart of a text, with its image written, where a stack may have this size: refusals 1 to 10 and 16, then 14.
fn chart_with_image(text: &[u8], size: usize, image: &mut [u8]) -> Result<Chart, Refusal> {
    put(&translated(text)?, image)?;
    fresh(size)?;
    chart_from_text(text)
}

/// What `translate` tries, then 14, 16 and 17; counts ticks. They are those of the chart's walk: no image is run.
pub fn dry_run(
    text: &[u8],
    size: usize,
    image: &mut [u8],
    words: &[u16],
    masks: &mut [u32],
    codes: &mut [u8],
) -> Answer {
    let chart = chart_with_image(text, size, image)?;
    let run = Run { words: words.to_vec(), masks: masks.to_vec(), codes: codes.to_vec(), prices: None };
    let walked = expected(&chart, size, &[Step::Run(run)]).remove(0);
    masks.copy_from_slice(&walked.masks);
    codes.copy_from_slice(&walked.codes);
    walked.answer
}

/// What the image check tries, then 15, 27 and 16 to 18; counts ticks. Of the masks those of finished ticks alone are priced.
pub fn priced_run(
    image: &[u8],
    state: &mut State,
    prices: &Prices,
    words: &[u16],
    masks: &mut [u32],
    codes: &mut [u8],
) -> PricedReport {
    let answer = image_for(image, state).and_then(|image| {
        refuse_if(Refusal::ManyWords, words.len() > PRICED_WORDS)?;
        roomy(words, masks, codes)?;
        run_ticks(|s, word| machine::tick(&image, s, word), state, words, masks, codes)
    });
    PricedReport { answer, price: price(prices, &masks[..answer.unwrap_or_else(Refusal::ticks)]) }
}

/// Ticks until the words end, or 17 or 18, which tell the ticks before.
pub fn run_ticks(
    tick: impl Fn(&State, u16) -> Result<Advanced, Refusal>,
    state: &mut State,
    words: &[u16],
    masks: &mut [u32],
    codes: &mut [u8],
) -> Answer {
    for (count, word) in words.iter().enumerate() {
        let advanced = tick(state, *word).map_err(|refusal| refusal.after(count))?;
        masks[count] = advanced.mask;
        codes[count] = advanced.code;
        *state = advanced.state;
    }
    Ok(words.len())
}

/// Refusal 22, or the number is served by the scheme from then on.
fn bind(shape: Shape, state: &mut State, number: usize, scheme: usize) -> Answer {
    refuse_if(Refusal::BadRebinding, !can_rebind(shape.schemes, shape.handler, number, scheme))?;
    state.serving[number - 1] = scheme as u8;
    Ok(0)
}

/// What the image check tries, then 15 and 22; counts 0.
pub fn rebind(image: &[u8], state: &mut State, number: usize, scheme: usize) -> Answer {
    bind(image_for(image, state)?.shape(), state, number, scheme)
}

/// Refusal 25, what the image check tries, then 15, 17, 26 and 18.
pub fn spin(
    states: &mut [State],
    taken: &mut usize,
    spindle: usize,
    image: &[u8],
    word: u16,
) -> Result<Tick, Refusal> {
    refuse_if(Refusal::NoSpindle, spindle >= SPINDLES)?;
    let image = image_from_text(image)?;
    let fits = |state: &State| machine::fits(&image, state);
    Head { states, taken }.turn(spindle, fits, |state| machine::tick(&image, state, word))
}

/// What the image check tries, then 15, 21 and 18.
pub fn cause(image: &[u8], state: &State, word: u16) -> Result<Cause, Refusal> {
    cause_of(&image_for(image, state)?, state, word)
}

/// Refusals 1 to 3, 11 to 13 and 16; counts labels.
pub fn list_rows(image: &[u8], firsts: &mut [u16], counts: &mut [u16]) -> Answer {
    let image = image_from_text(image)?;
    let (all_firsts, all_counts) = row_list(&image);
    refuse_if(Refusal::NoRoom, counts.len() < all_counts.len())?;
    put(&all_firsts, firsts)?;
    put(&all_counts, counts)?;
    Ok(image.labels.len())
}

/// Refusals 1 to 3, 11 to 13 and 16; counts bytes.
pub fn prepare(image: &[u8], out: &mut [u8]) -> Answer {
    written(image_from_text(image).map(|image| table_of(&image).concat()), out)
}

/// Refusals 11 to 13; counts 0.
pub fn check_table(table: &[u8]) -> Answer {
    prepared(table).map(|_| 0)
}

/// The text of the image with its alike labels joined: refusals 1 to 3, 11 to 13 and 23.
pub fn minimised(text: &[u8]) -> Result<Vec<u8>, Refusal> {
    let image = image_from_text(text)?;
    refuse_if(Refusal::Uneven, uneven(&image))?;
    Ok(text_of(&joined(&image).frames()))
}

/// Refusals 1 to 3, 11 to 13, 23 and 16; counts characters.
pub fn minimise(text: &[u8], out: &mut [u8]) -> Answer {
    written(minimised(text), out)
}

/// Refusals 24 and 16; counts characters.
pub fn little_chart(frames: usize, number: usize, out: &mut [u8]) -> Answer {
    written(little::texts(frames).get(number).ok_or(Refusal::NoLittleChart), out)
}

/// Over all lists of words: what the image check tries, then 14 and 28.
pub fn count_fillings(
    image: &[u8],
    size: usize,
    ticks: usize,
    conditions: usize,
) -> Result<Fillings, Refusal> {
    let image = image_from_text(image)?;
    let fresh = fresh(size)?;
    refuse_if(Refusal::ManyLists, too_many(ticks, conditions))?;
    Ok(counts(&image, &fresh, ticks, conditions))
}

/// The image that a table holds, if the state fits: refusals 11 and 15.
fn held_for(table: &[u8], state: &State) -> Result<Held, Refusal> {
    let held = Held::of(table)?;
    refuse_if(Refusal::Unfit, !held.fits(state))?;
    Ok(held)
}

/// Refusals 11, 15 and 22; counts 0.
pub fn live_rebind(table: &[u8], state: &mut State, number: usize, scheme: usize) -> Answer {
    bind(held_for(table, state)?.shape(), state, number, scheme)
}

/// Refusals 25, 11, 15, 17, 26 and 18.
pub fn live_spin(
    states: &mut [State],
    taken: &mut usize,
    spindle: usize,
    table: &[u8],
    word: u16,
) -> Result<Tick, Refusal> {
    refuse_if(Refusal::NoSpindle, spindle >= SPINDLES)?;
    let held = Held::of(table)?;
    Head { states, taken }.turn(spindle, |state| held.fits(state), |state| held.tick(state, word))
}

/// Refusal 11, then 15 to 18; counts ticks.
pub fn live_run(
    table: &[u8],
    state: &mut State,
    words: &[u16],
    masks: &mut [u32],
    codes: &mut [u8],
) -> Answer {
    let held = held_for(table, state)?;
    roomy(words, masks, codes)?;
    run_ticks(|s, word| held.tick(s, word), state, words, masks, codes)
}

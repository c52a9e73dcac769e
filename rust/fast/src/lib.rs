//! The same entry points written for speed, on slices and fixed arrays, with no memory from the heap. They are what
//! the proved library's times are measured against; the comparison holds them to the reference too.

mod chart;
mod fillings;
mod frames;
mod image;
mod kept;
mod little;
mod live;
mod machine;
mod minimise;
mod places;
mod price;
mod spindles;
mod stop;
mod table;

use interface::{COUNTED_BITS, COUNTED_TICKS, SPINDLES};
pub use kept::Kept;
use machine::Machine;
use reference::answer::{Answer, Refusal};
use reference::as_the_reference;
use reference::frames::{Frame, CHARACTERS, CHART_TEXT, IMAGE_TEXT};
use reference::library::{Cause, Fillings, Library, PricedReport, Prices, Tick};
use reference::state::{can_rebind, State};

const NODES: usize = 256;
const IMAGE_FRAMES: usize = IMAGE_TEXT / CHARACTERS;

fn read(text: &[u8], out: &mut [u8]) -> Result<usize, Refusal> {
    let mut frames = [[0; 10]; NODES];
    let records = frames::decode(text, CHART_TEXT, &mut frames)?;
    chart::check(records)?;
    let bytes = records.as_flattened();
    let Some(room) = out.get_mut(..bytes.len()) else {
        return Err(Refusal::NoRoom);
    };
    room.copy_from_slice(bytes);
    Ok(records.len())
}

/// Writes the lines of these frames, or refuses with 16 and writes nothing.
fn put(frames: &[Frame], out: &mut [u8]) -> Result<usize, Refusal> {
    let count = frames.len() * CHARACTERS;
    if out.len() < count {
        return Err(Refusal::NoRoom);
    }
    frames::encode(frames, out);
    Ok(count)
}

fn write(bytes: &[u8], out: &mut [u8]) -> Result<usize, Refusal> {
    let (records, rest) = bytes.as_chunks::<10>();
    if records.is_empty() || !rest.is_empty() || records.len() > NODES {
        return Err(Refusal::BadLength);
    }
    chart::check(records)?;
    put(records, out)
}

fn put_image(text: &[u8], out: &mut [u8]) -> Result<usize, Refusal> {
    let mut frames = [[0; 10]; NODES];
    let records = frames::decode(text, CHART_TEXT, &mut frames)?;
    let begins = chart::check(records)?;
    let mut image = [[0; 10]; IMAGE_FRAMES];
    put(table::fill(records, &begins, &mut image)?, out)
}

fn places(text: &[u8]) -> Result<usize, Refusal> {
    let mut frames = [[0; 10]; NODES];
    let records = frames::decode(text, CHART_TEXT, &mut frames)?;
    let begins = chart::check(records)?;
    table::fill(records, &begins, &mut [[0; 10]; IMAGE_FRAMES])?;
    places::needed(records)
}

/// The frames of an accepted image and where its parts are.
fn accepted<'a>(
    text: &[u8],
    frames: &'a mut [Frame; IMAGE_FRAMES],
) -> Result<(&'a [Frame], image::Parts), Refusal> {
    let frames = frames::decode(text, IMAGE_TEXT, frames)?;
    Ok((frames, image::check(frames)?))
}

fn put_table(text: &[u8], out: &mut [u8]) -> Result<usize, Refusal> {
    let mut frames = [[0; 10]; IMAGE_FRAMES];
    let (frames, parts) = accepted(text, &mut frames)?;
    let Some(table) = out.as_chunks_mut::<10>().0.get_mut(..frames.len()) else {
        return Err(Refusal::NoRoom);
    };
    live::prepare(frames, &parts, table);
    Ok(10 * frames.len())
}

fn put_list(text: &[u8], firsts: &mut [u16], counts: &mut [u16]) -> Result<usize, Refusal> {
    let mut frames = [[0; 10]; IMAGE_FRAMES];
    let (frames, parts) = accepted(text, &mut frames)?;
    let (Some(firsts), Some(counts)) = (firsts.get_mut(..parts.labels), counts.get_mut(..parts.labels))
    else {
        return Err(Refusal::NoRoom);
    };
    firsts.fill(0);
    counts.fill(0);
    for (number, row) in frames[1 + parts.schemes + parts.labels..].iter().enumerate() {
        let label = usize::from(row[1]);
        if counts[label] == 0 {
            firsts[label] = number as u16;
        }
        counts[label] += 1;
    }
    Ok(parts.labels)
}

fn put_smaller(text: &[u8], out: &mut [u8]) -> Result<usize, Refusal> {
    let mut frames = [[0; 10]; IMAGE_FRAMES];
    let (frames, parts) = accepted(text, &mut frames)?;
    let mut smaller = [[0; 10]; IMAGE_FRAMES];
    put(minimise::fill(frames, &parts, &mut smaller)?, out)
}

fn put_little(frames: usize, number: usize, out: &mut [u8]) -> Result<usize, Refusal> {
    put(&little::fill(frames, number)?[..frames], out)
}

/// A run on an image's text. Where it `SCANS`, each tick that takes a row looks through all rows of the image, to compare times.
pub fn run_on<const SCANS: bool>(
    image: &[u8],
    state: &mut State,
    words: &[u16],
    masks: &mut [u32],
    codes: &mut [u8],
) -> Answer {
    let mut frames = [[0; 10]; IMAGE_FRAMES];
    let (frames, parts) = accepted(image, &mut frames)?;
    Machine::<SCANS>::new(frames, &parts).run(state, words, masks, codes)
}

/// Whether each number of 2 to 16 may be served by the scheme that serves it: one that can be called, but above the last scheme, and
/// for the handler, only its own.
fn all_serve(serving: &[u8; 16], schemes: u8, handler: u8) -> bool {
    (2..=16).zip(&serving[1..]).all(|(number, server)| {
        if number > schemes || number == handler {
            *server == number
        } else {
            (2..=schemes).contains(server)
        }
    })
}

/// Refusals 15 and 22, or the number is served by the scheme from then on.
fn bind(fits: bool, schemes: u8, handler: u8, state: &mut State, number: usize, scheme: usize) -> Answer {
    if !fits {
        return Err(Refusal::Unfit);
    }
    if !can_rebind(schemes.into(), handler, number, scheme) {
        return Err(Refusal::BadRebinding);
    }
    state.serving[number - 1] = scheme as u8;
    Ok(0)
}

/// The fast functions.
pub struct Fast;

impl Library for Fast {
    as_the_reference!(fresh, check_table, sum, meaning);

    fn read_chart(&self, text: &[u8], out: &mut [u8]) -> Answer {
        read(text, out)
    }

    fn write_chart(&self, records: &[u8], out: &mut [u8]) -> Answer {
        write(records, out)
    }

    fn translate(&self, text: &[u8], out: &mut [u8]) -> Answer {
        put_image(text, out)
    }

    fn places(&self, text: &[u8]) -> Answer {
        places(text)
    }

    fn check_image(&self, text: &[u8]) -> Answer {
        let mut frames = [[0; 10]; IMAGE_FRAMES];
        accepted(text, &mut frames).map(|_| 0)
    }

    fn run(
        &self,
        image: &[u8],
        state: &mut State,
        words: &[u16],
        masks: &mut [u32],
        codes: &mut [u8],
    ) -> Answer {
        run_on::<false>(image, state, words, masks, codes)
    }

    fn dry_run(
        &self,
        text: &[u8],
        size: usize,
        image: &mut [u8],
        words: &[u16],
        masks: &mut [u32],
        codes: &mut [u8],
    ) -> Answer {
        let count = put_image(text, image)?;
        let mut state = self.fresh(size)?;
        run_on::<false>(&image[..count], &mut state, words, masks, codes)
    }

    fn priced_run(
        &self,
        image: &[u8],
        state: &mut State,
        prices: &Prices,
        words: &[u16],
        masks: &mut [u32],
        codes: &mut [u8],
    ) -> PricedReport {
        let mut frames = [[0; 10]; IMAGE_FRAMES];
        match accepted(image, &mut frames) {
            Ok((frames, parts)) => {
                Machine::<false>::new(frames, &parts).priced_run(state, prices, words, masks, codes)
            }
            Err(refusal) => PricedReport { answer: Err(refusal), price: 0 },
        }
    }

    fn spin(
        &self,
        states: &mut [State],
        taken: &mut usize,
        spindle: usize,
        image: &[u8],
        word: u16,
    ) -> Result<Tick, Refusal> {
        if spindle >= SPINDLES {
            return Err(Refusal::NoSpindle);
        }
        let mut frames = [[0; 10]; IMAGE_FRAMES];
        let (frames, parts) = accepted(image, &mut frames)?;
        spindles::turn(states, taken, spindle, |state| {
            Machine::<false>::new(frames, &parts).live_tick(state, word)
        })
    }

    fn rebind(&self, image: &[u8], state: &mut State, number: usize, scheme: usize) -> Answer {
        let mut frames = [[0; 10]; IMAGE_FRAMES];
        let (frames, parts) = accepted(image, &mut frames)?;
        Machine::<false>::new(frames, &parts).rebind(state, number, scheme)
    }

    fn cause(&self, image: &[u8], state: &State, word: u16) -> Result<Cause, Refusal> {
        let mut frames = [[0; 10]; IMAGE_FRAMES];
        let (frames, parts) = accepted(image, &mut frames)?;
        Machine::<false>::new(frames, &parts).cause(state, word)
    }

    fn list_rows(&self, image: &[u8], firsts: &mut [u16], counts: &mut [u16]) -> Answer {
        put_list(image, firsts, counts)
    }

    fn minimise(&self, image: &[u8], out: &mut [u8]) -> Answer {
        put_smaller(image, out)
    }

    fn little_chart(&self, frames: usize, number: usize, text: &mut [u8]) -> Answer {
        put_little(frames, number, text)
    }

    fn count_fillings(
        &self,
        image: &[u8],
        size: usize,
        ticks: usize,
        conditions: usize,
    ) -> Result<Fillings, Refusal> {
        let mut frames = [[0; 10]; IMAGE_FRAMES];
        let (frames, parts) = accepted(image, &mut frames)?;
        let fresh = self.fresh(size)?;
        if ticks > COUNTED_TICKS || conditions > COUNTED_BITS || ticks * conditions > COUNTED_BITS {
            return Err(Refusal::ManyLists);
        }
        Ok(Machine::<false>::new(frames, &parts).count(&fresh, ticks, conditions))
    }

    fn prepare(&self, image: &[u8], table: &mut [u8]) -> Answer {
        put_table(image, table)
    }

    fn live_run(
        &self,
        table: &[u8],
        state: &mut State,
        words: &[u16],
        masks: &mut [u32],
        codes: &mut [u8],
    ) -> Answer {
        let table = live::Table::of(table).ok_or(Refusal::BadHeader)?;
        if !table.fits(state) {
            return Err(Refusal::Unfit);
        }
        let count = words.len();
        let (Some(masks), Some(codes)) = (masks.get_mut(..count), codes.get_mut(..count)) else {
            return Err(Refusal::NoRoom);
        };
        table.run(state, words, masks, codes)
    }

    fn live_tick(&self, table: &[u8], state: &mut State, word: u16) -> Result<Tick, Refusal> {
        live::Table::of(table).ok_or(Refusal::BadHeader)?.fitting_tick(state, word)
    }

    fn live_spin(
        &self,
        states: &mut [State],
        taken: &mut usize,
        spindle: usize,
        table: &[u8],
        word: u16,
    ) -> Result<Tick, Refusal> {
        if spindle >= SPINDLES {
            return Err(Refusal::NoSpindle);
        }
        let table = live::Table::of(table).ok_or(Refusal::BadHeader)?;
        spindles::turn(states, taken, spindle, |state| table.fitting_tick(state, word))
    }

    fn live_rebind(&self, table: &[u8], state: &mut State, number: usize, scheme: usize) -> Answer {
        live::Table::of(table).ok_or(Refusal::BadHeader)?.rebind(state, number, scheme)
    }
}

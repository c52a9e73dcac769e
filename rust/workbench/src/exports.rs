//! The functions that the page calls. What it hands over it puts where `room` says; what it is told begins at `told`, and each call
//! returns how many bytes that is. A page has one thread, and so one bench.

use std::cell::RefCell;

use office::problem::Problem;

use crate::bench::Bench;
use crate::seek::Event;
use crate::told;
use office::formats::json::Json;

#[derive(Default)]
struct Page {
    bench: Bench,
    given: Vec<u8>,
    told: Vec<u8>,
}

thread_local! {
    static PAGE: RefCell<Page> = RefCell::default();
}

/// Tells what the bench says.
fn tell(asked: impl FnOnce(&mut Bench, &[u8]) -> Vec<u8>) -> usize {
    PAGE.with_borrow_mut(|page| {
        let Page { bench, given, told } = page;
        *told = asked(bench, given);
        told.len()
    })
}

fn tell_json(asked: impl FnOnce(&mut Bench, &[u8]) -> Json) -> usize {
    tell(|bench, given| asked(bench, given).to_string().into_bytes())
}

/// A text with whether it is one, or the words of the problem.
fn tell_text(asked: impl FnOnce(&Bench, &[u8]) -> Result<Vec<u8>, Problem>) -> usize {
    tell_json(|bench, given| {
        let (done, told) = match asked(bench, given) {
            Ok(text) => (true, vec![("text", String::from_utf8_lossy(&text).into_owned().into())]),
            Err(problem) => (false, told::problem(&problem)),
        };
        Json::Record([vec![("done", done.into())], told].concat())
    })
}

/// The text that was handed over.
fn text(given: &[u8]) -> &str {
    std::str::from_utf8(given).unwrap_or("")
}

/// Room for so many bytes.
#[unsafe(no_mangle)]
pub extern "C" fn room(length: usize) -> *mut u8 {
    PAGE.with_borrow_mut(|page| {
        page.given = vec![0; length];
        page.given.as_mut_ptr()
    })
}

#[unsafe(no_mangle)]
pub extern "C" fn told() -> *const u8 {
    PAGE.with_borrow(|page| page.told.as_ptr())
}

/// A chart or an image, that was handed over.
#[unsafe(no_mangle)]
pub extern "C" fn check() -> usize {
    tell_json(Bench::check)
}

/// A chart that was handed over gives an image names.
#[unsafe(no_mangle)]
pub extern "C" fn name() -> usize {
    tell(|bench, given| {
        bench.name(given);
        Vec::new()
    })
}

/// The most bytes of a file that is read.
#[unsafe(no_mangle)]
pub extern "C" fn longest() -> usize {
    tell_json(|_, _| office::source::LONGEST.into())
}

/// Whether the bytes of a file can be taken into the editor.
#[unsafe(no_mangle)]
pub extern "C" fn readable() -> usize {
    tell_text(|_, given| Bench::readable(given).map(|()| Vec::new()))
}

/// What is to be said of the bytes of a file.
#[unsafe(no_mangle)]
pub extern "C" fn words_of() -> usize {
    tell_text(|bench, given| bench.words_of(given).map(String::into_bytes))
}

#[unsafe(no_mangle)]
pub extern "C" fn begin(places: usize) -> usize {
    tell_json(|bench, _| bench.begin(places))
}

#[unsafe(no_mangle)]
pub extern "C" fn state() -> usize {
    tell_json(|bench, _| bench.state())
}

#[unsafe(no_mangle)]
pub extern "C" fn tick(word: u32, times: usize) -> usize {
    tell_json(|bench, _| bench.tick(word as u16, times))
}

/// Words that were handed over; of no ticks as many as these are.
#[unsafe(no_mangle)]
pub extern "C" fn feed(ticks: usize) -> usize {
    tell_json(|bench, given| bench.feed(text(given), (ticks > 0).then_some(ticks)))
}

#[unsafe(no_mangle)]
pub extern "C" fn cut(ticks: usize) -> usize {
    tell_json(|bench, _| bench.cut(ticks))
}

#[unsafe(no_mangle)]
pub extern "C" fn swap(number: usize, scheme: usize) -> usize {
    tell_json(|bench, _| bench.swap(number, scheme))
}

/// By its place in the list of swaps.
#[unsafe(no_mangle)]
pub extern "C" fn unswap(at: usize) -> usize {
    tell_json(|bench, _| bench.unswap(at))
}

#[unsafe(no_mangle)]
pub extern "C" fn words() -> usize {
    tell(|bench, _| bench.words().into_bytes())
}

/// Words and swaps, a line each, that were handed over.
#[unsafe(no_mangle)]
pub extern "C" fn restore(places: usize) -> usize {
    tell_json(|bench, given| {
        let (words, swaps) = text(given).split_once('\n').unwrap_or((text(given), ""));
        bench.restore(words, swaps, places)
    })
}

/// A scenario that was handed over.
#[unsafe(no_mangle)]
pub extern "C" fn play() -> usize {
    tell_json(Bench::play)
}

/// The run as one, under a name that was handed over; what is expected stands in it too where `expecting` is not 0.
#[unsafe(no_mangle)]
pub extern "C" fn scenario(expecting: usize) -> usize {
    tell_text(|bench, given| bench.scenario(text(given), expecting != 0).map(String::into_bytes))
}

/// Whether the bytes of a file are one.
#[unsafe(no_mangle)]
pub extern "C" fn holds_scenario() -> usize {
    tell_json(|_, given| Bench::holds_scenario(given).into())
}

#[unsafe(no_mangle)]
pub extern "C" fn rows(from: usize, to: usize) -> usize {
    tell_json(|bench, _| bench.rows(from, to))
}

#[unsafe(no_mangle)]
pub extern "C" fn row(number: usize) -> usize {
    tell_json(|bench, _| bench.row(number))
}

#[unsafe(no_mangle)]
pub extern "C" fn why(number: usize) -> usize {
    tell_text(|bench, _| bench.why(number).map(String::into_bytes))
}

/// From a row forward or backward; from none where its number is the largest.
#[unsafe(no_mangle)]
pub extern "C" fn seek(event: usize, from: usize, forward: usize) -> usize {
    let from = (from != usize::MAX).then_some(from);
    tell_json(|bench, _| bench.seek(Event::of(event), from, forward != 0))
}

/// The same for the next row at a box of the drawing, whose identifier was handed over.
#[unsafe(no_mangle)]
pub extern "C" fn visit(from: usize) -> usize {
    let from = (from != usize::MAX).then_some(from);
    tell_json(|bench, given| bench.visit(text(given), from))
}

/// Four bytes a tick, the lowest first.
#[unsafe(no_mangle)]
pub extern "C" fn masks() -> usize {
    tell(|bench, _| bench.masks().into_iter().flat_map(u32::to_le_bytes).collect())
}

/// A price list that was handed over.
#[unsafe(no_mangle)]
pub extern "C" fn bill() -> usize {
    tell_text(|bench, given| bench.bill(given).map(String::into_bytes))
}

#[unsafe(no_mangle)]
pub extern "C" fn keep() -> usize {
    tell_json(|bench, _| bench.keep())
}

#[unsafe(no_mangle)]
pub extern "C" fn compare() -> usize {
    tell_json(|bench, _| bench.compare())
}

#[unsafe(no_mangle)]
pub extern "C" fn never() -> usize {
    tell_json(|bench, _| bench.never())
}

#[unsafe(no_mangle)]
pub extern "C" fn report() -> usize {
    tell_text(|bench, _| bench.report().map(String::into_bytes))
}

/// The run as waves, under a name that was handed over.
#[unsafe(no_mangle)]
pub extern "C" fn vcd() -> usize {
    tell_text(|bench, given| bench.vcd(text(given)).map(String::into_bytes))
}

#[unsafe(no_mangle)]
pub extern "C" fn lines() -> usize {
    tell_text(|bench, _| bench.lines())
}

#[unsafe(no_mangle)]
pub extern "C" fn laid_out() -> usize {
    tell_text(|bench, _| bench.laid_out().map(String::into_bytes))
}

#[unsafe(no_mangle)]
pub extern "C" fn image() -> usize {
    tell_text(|bench, _| bench.image())
}

//! Compares a library with the reference on random inputs. Case k of seed s is case 0 of seed s + k, so that one case
//! can be made again by its own seed; seeds that lie closer than the number of cases share cases.

mod alike;
mod dry_runs;
mod fillings;
mod little;
mod live;
mod minimised;
mod priced;
mod rebindings;
mod rows;
mod spindles;
mod ticks;

use std::collections::BTreeMap;
use std::fmt;

use crate::generate::{chains, charts, damage, images, letters, runs, Random};
use crate::show;
pub use alike::live_alike;
pub use little::{run_little_charts, Tried};
use reference::answer::Answer;
use reference::entry;
use reference::frames::{frames_of, text_of, Frame, CHARACTERS, IMAGE_TEXT, RECORDS};
use reference::library::{Library, Reference};
use reference::state::Binding;
use reference::Told;

/// The first input on which the library and the reference differ.
#[derive(Debug)]
pub struct Difference {
    pub seed: u64,
    pub call: &'static str,
    pub input: String,
    pub expected: String,
    pub got: String,
}

impl fmt::Display for Difference {
    fn fmt(&self, f: &mut fmt::Formatter) -> fmt::Result {
        writeln!(f, "{} differs; again by FAIRLEADOW_SEED={} FAIRLEADOW_CASES=1", self.call, self.seed)?;
        writeln!(f, "input: {}", self.input)?;
        writeln!(f, "expected: {}", self.expected)?;
        write!(f, "got: {}", self.got)
    }
}

/// How often each call gave each answer (0 for success), how often its ticks dropped the stack and returned at the bottom, how often
/// they called a number that another scheme served, and how many of its texts had small letters and were refused by none of 1 to 3. And
/// how many images became smaller when their alike labels were joined, what was met in priced runs, how many drops were made while all
/// places of four spindles were taken, and what was counted of lists of words.
#[derive(Debug, Default)]
pub struct Summary {
    pub answers: BTreeMap<(&'static str, u8), usize>,
    pub handled: BTreeMap<&'static str, Handled>,
    pub swapped: BTreeMap<&'static str, usize>,
    pub small: BTreeMap<&'static str, usize>,
    pub joined: usize,
    pub priced: PricedRuns,
    pub full_drops: BTreeMap<&'static str, usize>,
    pub fillings: Counted,
}

/// Priced runs with an accepted image and a fitting state: those that have a price above 0 when 17 or 18 ends them, those whose sum ends
/// in 50 and in 49 hundredths, those of as many ticks as there may be, and those whose sum passes 32 bits.
#[derive(Clone, Copy, Debug, Default)]
pub struct PricedRuns {
    pub stopped: usize,
    pub halves: usize,
    pub below_halves: usize,
    pub longest: usize,
    pub large: usize,
}

/// Counts of lists of words of which some end and some get 17, some end and some get 18, and some get either, and those of as many lists
/// as there may be.
#[derive(Clone, Copy, Debug, Default)]
pub struct Counted {
    pub full: usize,
    pub unmatched: usize,
    pub both: usize,
    pub most: usize,
}

/// Drops to the handler, and returns at the bottom: the handler's, or those that a damaged table leads to.
#[derive(Clone, Copy, Debug, Default)]
pub struct Handled {
    pub drops: usize,
    pub returns: usize,
}

impl Summary {
    pub fn count(&self, call: &'static str, number: u8) -> usize {
        self.answers.get(&(call, number)).copied().unwrap_or(0)
    }

    pub fn handled(&self, call: &'static str) -> Handled {
        self.handled.get(call).copied().unwrap_or_default()
    }

    pub fn swapped(&self, call: &'static str) -> usize {
        self.swapped.get(call).copied().unwrap_or(0)
    }

    pub fn small(&self, call: &'static str) -> usize {
        self.small.get(call).copied().unwrap_or(0)
    }

    pub fn full_drops(&self, call: &'static str) -> usize {
        self.full_drops.get(call).copied().unwrap_or(0)
    }

    fn note_letters(&mut self, call: &'static str, text: &[u8]) {
        let small = text.iter().any(|character| (b'a'..=b'f').contains(character));
        if small && frames_of(text, IMAGE_TEXT).is_ok() {
            *self.small.entry(call).or_insert(0) += 1;
        }
    }

    fn note_joined(&mut self, given: usize, smaller: usize) {
        self.joined += usize::from(smaller < given);
    }

    /// Follows the depth by the codes of finished ticks, which go by one binding, and hands back the depth after them.
    fn note_codes(&mut self, call: &'static str, depth: usize, binding: &Binding, codes: &[u8]) -> usize {
        let handled = self.handled.entry(call).or_default();
        let swapped = self.swapped.entry(call).or_default();
        let mut depth = depth;
        for code in codes {
            match code {
                0x10..=0x20 | 0x40..=0x50 => {
                    let number = (code - 1) & 15;
                    *swapped += usize::from(binding[usize::from(number)] != number + 1);
                    depth += 1;
                }
                0x03 if depth == 1 => handled.returns += 1,
                0x03 => depth -= 1,
                0x60 => {
                    handled.drops += 1;
                    depth = 1;
                }
                _ => {}
            }
        }
        depth
    }
}

impl fmt::Display for Summary {
    fn fmt(&self, f: &mut fmt::Formatter) -> fmt::Result {
        for ((call, number), count) in &self.answers {
            writeln!(f, "{call:>12} {number:>3} {count:>8}")?;
        }
        for (call, Handled { drops, returns }) in &self.handled {
            writeln!(f, "{call:>12} {drops:>8} drops, {returns:>8} returns at the bottom")?;
        }
        for (call, count) in &self.swapped {
            writeln!(f, "{call:>12} {count:>8} calls of a number that another scheme serves")?;
        }
        for (call, count) in &self.full_drops {
            writeln!(f, "{call:>12} {count:>8} drops while all places are taken")?;
        }
        for (call, count) in &self.small {
            writeln!(f, "{call:>12} {count:>8} texts with small letters")?;
        }
        writeln!(f, "{:>12} {:>8} images became smaller", "minimise", self.joined)?;
        writeln!(f, "{:>12} {:?}", "priced_run", self.priced)?;
        writeln!(f, "{:>12} {:?}", "count_fillings", self.fillings)
    }
}

/// Compares on so many cases and stops at the first difference.
pub fn compare(library: &dyn Library, seed: u64, cases: u64) -> Result<Summary, Box<Difference>> {
    compare_by(library, seed, cases, |case| case.one())
}

/// The same by lists of calls on four spindles alone, which their walks judge.
pub fn compare_spins(library: &dyn Library, seed: u64, cases: u64) -> Result<Summary, Box<Difference>> {
    compare_by(library, seed, cases, |case| case.spins())
}

/// The same by lists of runs, ticks and rebindings of both kinds alone, which the walk judges and not the reference's machine.
pub fn compare_lists(library: &dyn Library, seed: u64, cases: u64) -> Result<Summary, Box<Difference>> {
    compare_by(library, seed, cases, |case| case.calls("live_runs", true))
}

fn compare_by(
    library: &dyn Library,
    seed: u64,
    cases: u64,
    one: impl Fn(&mut Case) -> Compared,
) -> Result<Summary, Box<Difference>> {
    let mut summary = Summary::default();
    for case in 0..cases {
        let mut compared = Case {
            library,
            seed: seed.wrapping_add(case),
            random: Random::new(seed.wrapping_add(case)),
            summary: &mut summary,
        };
        one(&mut compared)?;
    }
    Ok(summary)
}

struct Case<'a> {
    library: &'a dyn Library,
    seed: u64,
    random: Random,
    summary: &'a mut Summary,
}

impl Drop for Case<'_> {
    /// What a library answers in no answer's way ends the program.
    fn drop(&mut self) {
        if std::thread::panicking() {
            eprintln!("again by FAIRLEADOW_SEED={} FAIRLEADOW_CASES=1", self.seed);
        }
    }
}

type Compared = Result<(), Box<Difference>>;

/// The middle of a filled buffer is lent, so that a write beside it shows: so much is before it and behind it.
const MARGIN: usize = 64;

/// A call that reads one list of bytes and writes another.
type Call<'a> = fn(&(dyn Library + 'a), &[u8], &mut [u8]) -> Answer;

impl<'a> Case<'a> {
    fn one(&mut self) -> Compared {
        match self.random.below(21) {
            0 => self.read_chart(),
            1 => self.write_chart(),
            2 => self.translate().and_then(|()| self.places()),
            3 => self.check_image().and_then(|()| self.count_fillings()),
            4 => self.fresh().and_then(|()| self.little_chart()).and_then(|()| self.dry_run()),
            5 => self.run().and_then(|()| self.dry_run()),
            6 => self.tick(),
            7 => self.calls("runs", false),
            8 => self.prepare().and_then(|()| self.count_fillings()),
            9 | 10 => self.live_run().and_then(|()| self.check_table()).and_then(|()| self.sum()),
            11 | 12 => self.live_tick(),
            13 => self.calls("live_runs", true),
            14 => self.cause(),
            15 => self.list_rows().and_then(|()| self.minimise()),
            16 => self.rebind().and_then(|()| self.spin()),
            17 => self.live_rebind().and_then(|()| self.live_spin()),
            18 | 19 => self.priced_run(),
            _ => self.mixture().and_then(|()| self.spins()),
        }
    }

    /// Notes the answer and holds what was expected against what came.
    fn hold<T: PartialEq + fmt::Debug>(
        &mut self,
        call: &'static str,
        answer: impl Told,
        expected: &T,
        got: &T,
        input: impl FnOnce() -> String,
    ) -> Compared {
        *self.summary.answers.entry((call, answer.number())).or_insert(0) += 1;
        if expected == got {
            return Ok(());
        }
        Err(Box::new(Difference {
            seed: self.seed,
            call,
            input: input(),
            expected: format!("{expected:?}"),
            got: format!("{got:?}"),
        }))
    }

    /// Records of a valid or damaged chart.
    fn records(&mut self, chart: fn(&mut Random) -> Vec<Frame>) -> Vec<Frame> {
        let records = chart(&mut self.random);
        if self.random.once_in(2) {
            damage::records(&mut self.random, &records)
        } else {
            records
        }
    }

    fn chart_text(&mut self, chart: fn(&mut Random) -> Vec<Frame>) -> Vec<u8> {
        let text = text_of(&self.records(chart));
        let text = if self.random.once_in(4) { damage::text(&mut self.random, &text) } else { text };
        letters::sizes(&mut self.random, text)
    }

    /// Compares a call on some bytes, with a filled buffer for what it would write.
    fn written(
        &mut self,
        name: &'static str,
        call: Call<'a>,
        input: &[u8],
        needed: usize,
        shown: fn(&[u8]) -> String,
    ) -> Compared {
        self.lent(name, needed, |library, out| call(library, input, out), || shown(input))
    }

    /// Compares a call that is lent a filled buffer.
    fn lent(
        &mut self,
        name: &'static str,
        needed: usize,
        call: impl Fn(&(dyn Library + 'a), &mut [u8]) -> Answer,
        shown: impl FnOnce() -> String,
    ) -> Compared {
        let length = runs::room(&mut self.random, needed);
        let out = runs::bytes(&mut self.random, length + 2 * MARGIN);
        let lent = MARGIN..MARGIN + length;
        let (mut wanted, mut given) = (out.clone(), out.clone());
        let answer = call(&Reference, &mut wanted[lent.clone()]);
        let got = call(self.library, &mut given[lent]);
        self.hold(name, answer, &(answer, wanted), &(got, given), || {
            format!("{}buffer of {}", shown(), show::bytes(&out))
        })
    }

    fn read_chart(&mut self) -> Compared {
        let text = self.chart_text(charts::chart);
        self.summary.note_letters("read_chart", &text);
        let needed = text.len() / CHARACTERS * 10;
        self.written("read_chart", <dyn Library>::read_chart, &text, needed, show::text)
    }

    fn write_chart(&mut self) -> Compared {
        let mut records = self.records(charts::chart).concat();
        match self.random.below(20) {
            0 => records.truncate(self.random.below(records.len() + 1)),
            1 => records.push(0),
            2 => {
                let length = self.random.pick(&[RECORDS, RECORDS + 10]);
                records = records.iter().cycle().take(length).copied().collect();
            }
            _ => {}
        }
        let needed = records.len() / 10 * CHARACTERS;
        self.written("write_chart", <dyn Library>::write_chart, &records, needed, show::bytes)
    }

    fn translate(&mut self) -> Compared {
        let text = self.chart_text(charts::chart);
        self.summary.note_letters("translate", &text);
        let needed = entry::translated(&text).map_or(100, |image| image.len());
        self.written("translate", <dyn Library>::translate, &text, needed, show::text)
    }

    fn places(&mut self) -> Compared {
        let text = self.chart_text(chains::chart);
        self.summary.note_letters("places", &text);
        let answer = entry::places(&text);
        let got = self.library.places(&text);
        self.hold("places", answer, &answer, &got, || format!("chart of {}", show::text(&text)))
    }

    fn check_image(&mut self) -> Compared {
        let text = images::text(&mut self.random);
        self.summary.note_letters("check_image", &text);
        let answer = entry::check_image(&text);
        let got = self.library.check_image(&text);
        self.hold("check_image", answer, &answer, &got, || format!("image of {}", show::text(&text)))
    }

    fn fresh(&mut self) -> Compared {
        let size = match self.random.below(8) {
            0 => self.random.number() as usize,
            1 => self.random.pick(&[0, 32, 33, 256, 257, usize::MAX]),
            _ => self.random.below(40),
        };
        let wanted = entry::fresh(size);
        let got = self.library.fresh(size);
        self.hold("fresh", wanted, &wanted, &got, || format!("size {size}"))
    }
}

//! Inputs that keep each entry point busy for long: the samples, constructions for the loops that a call has, and what a
//! search found. controller/count counts what they take; the comparison makes each of these calls too.

use super::worst_charts::worst_charts;
use super::worst_images::{rows_that_match_from_home, worst_images, worst_ticks};
use super::worst_joined::worst_joined;
use super::worst_tables::worst_tables;
use super::{chart_p, found, largest_image, named_charts};
use crate::entry_point::{EntryPoint, Input};
use interface::PLACES;
use reference::check::chart_of;
use reference::entry::minimised;
use reference::frames::{text_of, Frame};
use reference::image::{image_of, Image};
use reference::little;
use reference::prepare::table_of;
use reference::state::{fresh_state, State};
use reference::{machine, translator};

/// How many words a run has here.
pub const WORDS: usize = 64;

/// The bytes of the board's buffers.
const BUFFERS: usize = 47_104;

/// Where an input is from.
#[derive(Clone, Copy, Debug, PartialEq, Eq)]
pub enum Origin {
    /// Chart P, to compare with.
    ChartP,
    Sample,
    Construction,
    Search,
}

#[derive(Clone, Debug)]
pub struct Candidate {
    pub name: String,
    pub origin: Origin,
    pub input: Input,
}

impl Candidate {
    fn new(name: &str, origin: Origin, input: Input) -> Candidate {
        Candidate { name: name.to_string(), origin, input }
    }
}

/// All inputs for an entry point, chart P's first.
pub fn candidates(entry: EntryPoint) -> Vec<Candidate> {
    let mut all = known(entry);
    all.extend(found::found(entry).into_iter().map(|(name, input)| Candidate {
        name,
        origin: Origin::Search,
        input,
    }));
    all
}

/// All but what a search found, which begins with these.
pub fn known(entry: EntryPoint) -> Vec<Candidate> {
    match entry {
        EntryPoint::ReadChart | EntryPoint::WriteChart | EntryPoint::Translate | EntryPoint::Places => {
            charts()
        }
        EntryPoint::DryRun => dry_runs(),
        EntryPoint::CheckImage | EntryPoint::Prepare | EntryPoint::ListRows => images(),
        EntryPoint::CheckTable | EntryPoint::Sum => of_images(table_of),
        EntryPoint::Minimise => smaller_images(),
        EntryPoint::LittleChart => little_charts(),
        EntryPoint::CountFillings => fillings(),
        EntryPoint::Tick
        | EntryPoint::Run
        | EntryPoint::PricedRun
        | EntryPoint::Cause
        | EntryPoint::Rebind
        | EntryPoint::Spin => ticks(entry),
        EntryPoint::LiveTick | EntryPoint::LiveRun | EntryPoint::LiveRebind | EntryPoint::LiveSpin => {
            live(entry)
        }
        EntryPoint::Fresh => values("stack of", 0..=33),
        EntryPoint::Meaning => values("code", 0..=255),
    }
}

/// Every value is tried; 32 stands in chart P's place.
fn values(name: &str, all: std::ops::RangeInclusive<usize>) -> Vec<Candidate> {
    let candidate = |name: String, origin, value| Candidate {
        name,
        origin,
        input: Input { value, ..Input::of(Vec::new()) },
    };
    let first = candidate(format!("{name} 32"), Origin::ChartP, 32);
    let rest = all.map(|value| candidate(format!("{name} {value}"), Origin::Construction, value));
    [first].into_iter().chain(rest).collect()
}

/// Every little chart, the first of 2 frames in chart P's place, and a number past the last, also of two frame counts that have none.
fn little_charts() -> Vec<Candidate> {
    let candidate = |origin, value, chart| {
        let input = Input { value, chart, ..Input::of(Vec::new()) };
        Candidate::new(&format!("{value} frames, number {chart}"), origin, input)
    };
    let mut all = vec![candidate(Origin::ChartP, 2, 0)];
    for frames in [0, 2, 3, 4, 5] {
        let numbers = 0..=little::texts(frames).len();
        all.extend(numbers.map(|number| candidate(Origin::Construction, frames, number)));
    }
    all
}

fn sample_charts() -> Vec<(String, Origin, Vec<Frame>)> {
    let mut all = vec![("chart P".to_string(), Origin::ChartP, chart_p())];
    all.extend(named_charts().into_iter().map(|(name, records)| (name, Origin::Sample, records)));
    all
}

fn charts() -> Vec<Candidate> {
    let mut all: Vec<Candidate> = sample_charts()
        .into_iter()
        .map(|(name, origin, records)| Candidate::new(&name, origin, Input::of(records)))
        .collect();
    let constructed = worst_charts().into_iter();
    all.extend(constructed.map(|(name, it)| Candidate::new(name, Origin::Construction, Input::of(it))));
    all
}

/// The charts run on the largest stack, every condition 1.
fn dry_runs() -> Vec<Candidate> {
    let mut all = charts();
    for Candidate { input, .. } in &mut all {
        (input.value, input.words) = (PLACES, vec![0xFFFF; WORDS]);
    }
    all
}

/// The images of the charts that translate, and the largest.
fn sample_images() -> Vec<(String, Origin, Image)> {
    let image = |records: &[Frame]| translator::image_of(&chart_of(records).ok()?).ok();
    let mut all: Vec<(String, Origin, Image)> = sample_charts()
        .into_iter()
        .filter_map(|(name, origin, records)| Some((name, origin, image(&records)?)))
        .collect();
    let largest = image_of(&largest_image()).expect("an accepted image");
    all.push(("largest image".to_string(), Origin::Sample, largest));
    all
}

fn images() -> Vec<Candidate> {
    of_images(Image::frames)
}

/// Images, with what is made of an image.
fn of_images(frames: fn(&Image) -> Vec<Frame>) -> Vec<Candidate> {
    let mut all: Vec<Candidate> = sample_images()
        .into_iter()
        .map(|(name, origin, image)| Candidate::new(&name, origin, Input::of(frames(&image))))
        .collect();
    let constructed = worst_images().into_iter();
    all.extend(
        constructed.map(|(name, it)| Candidate::new(name, Origin::Construction, Input::of(frames(&it)))),
    );
    all
}

/// The same on the largest stack, each with 256 lists of words: few enough for the board. Then all 65,536 lists of 16 words on chart P,
/// which take most of the stack, and lists whose every tick compares 1,024 rows.
fn fillings() -> Vec<Candidate> {
    let mut all = images();
    let constructed = |name: &str, lists, frames| {
        Candidate::new(name, Origin::Construction, Input { lists, ..Input::of(frames) })
    };
    let longest = all[0].input.frames.clone();
    all.push(constructed("chart P, 16 words", (16, 1), longest));
    all.push(constructed("1,024 rows that match, 8 words", (8, 1), rows_that_match_from_home().frames()));
    all.iter_mut().for_each(|candidate| candidate.input.value = PLACES);
    all
}

/// Images and such as take long to join, less those that have no room on the board beside what they become.
fn smaller_images() -> Vec<Candidate> {
    let mut all = images();
    let constructed = worst_joined().into_iter();
    all.extend(
        constructed.map(|(name, it)| Candidate::new(name, Origin::Construction, Input::of(it.frames()))),
    );
    all.retain(|candidate| {
        let text = text_of(&candidate.input.frames);
        text.len() + minimised(&text).map_or(0, |smaller| smaller.len()) <= BUFFERS
    });
    all
}

/// The samples' images ticked from a fresh state, with the first word all 0 and the next all 1, by turns.
fn sample_ticks(entry: EntryPoint) -> Vec<(String, Origin, Image, State, Vec<u16>)> {
    let fresh = fresh_state(32).expect("32 is a size");
    let mut all = Vec::new();
    for (name, origin, image) in sample_images() {
        if matches!(entry, EntryPoint::Run | EntryPoint::PricedRun | EntryPoint::LiveRun) {
            all.push((name, origin, image, fresh, vec![0xFFFF; WORDS]));
            continue;
        }
        let mut state = fresh;
        for (k, word) in [0, 0xFFFF, 0, 0xFFFF, 0xFFFF].into_iter().enumerate() {
            all.push((format!("{name}, tick {}", k + 1), origin, image.clone(), state, vec![word]));
            state = machine::tick(&image, &state, word).map_or(state, |advanced| advanced.state);
        }
    }
    all
}

/// Ticks on images, with what is made of an image.
fn ticks_on(entry: EntryPoint, frames: fn(&Image) -> Vec<Frame>) -> Vec<Candidate> {
    let mut all = Vec::new();
    for (name, origin, image, state, words) in sample_ticks(entry) {
        all.push(Candidate::new(&name, origin, Input { state, words, ..Input::of(frames(&image)) }));
    }
    for (name, image, state, words) in worst_ticks() {
        let input = Input { state, words, ..Input::of(frames(&image)) };
        all.push(Candidate::new(name, Origin::Construction, input));
    }
    all
}

fn ticks(entry: EntryPoint) -> Vec<Candidate> {
    ticks_on(entry, Image::frames)
}

/// On prepared tables, and on tables that no preparation makes.
fn live(entry: EntryPoint) -> Vec<Candidate> {
    let mut all = ticks_on(entry, table_of);
    for (name, frames, state, words) in worst_tables() {
        let input = Input { state, words, ..Input::of(frames) };
        all.push(Candidate::new(name, Origin::Construction, input));
    }
    all
}

#[cfg(test)]
mod tests {
    use super::*;
    use reference::library::Reference;
    use reference::prepare::is_table;
    use reference::Told;

    /// What the reference answers to a construction, by its name: the number, the index, and the count.
    fn answer(entry: EntryPoint, name: &str) -> (u8, usize, usize) {
        let all = known(entry);
        let named = all.iter().find(|candidate| candidate.name == name).expect("there is one of this name");
        match entry.make(&Reference, &named.input).answer {
            Ok(count) => (0, 0, count),
            Err(refusal) => (refusal.number(), refusal.index(), refusal.ticks()),
        }
    }

    fn constructions(entry: EntryPoint) -> impl Iterator<Item = Candidate> {
        known(entry).into_iter().filter(|candidate| candidate.origin == Origin::Construction)
    }

    #[test]
    fn circles_are_found_late() {
        for candidate in constructions(EntryPoint::ReadChart) {
            let (number, index, count) = answer(EntryPoint::ReadChart, &candidate.name);
            let circle = candidate.name.contains("circle");
            assert!(if circle { number == 8 && index >= 254 } else { count == 256 }, "{}", candidate.name);
        }
    }

    #[test]
    fn long_paths_have_as_many_rows_as_an_image_holds() {
        let image = |labels: usize| (0, 0, 23 * (2 + labels + 1_024));
        for name in ["Begin before falling conditions with 10 numbers", "one number after ten"] {
            assert_eq!(answer(EntryPoint::Translate, name), image(3), "{name}");
        }
        let name = "4 operations before one line of conditions";
        assert_eq!(answer(EntryPoint::Translate, name), image(6));
        let name = "32 operations before one line of conditions";
        assert_eq!(answer(EntryPoint::Translate, name), image(34));
        let name = "Begin before falling conditions with 11 numbers";
        assert_eq!(answer(EntryPoint::Translate, name), (10, 0, 0));
    }

    #[test]
    fn every_little_chart_is_there() {
        let answers = known(EntryPoint::LittleChart).into_iter().skip(1).map(|candidate| {
            let made = EntryPoint::LittleChart.make(&Reference, &candidate.input);
            (made.answer.number(), made.answer.unwrap_or(0))
        });
        let mut counts = std::collections::BTreeMap::new();
        answers.for_each(|answer| *counts.entry(answer).or_insert(0) += 1);
        assert_eq!(
            counts.into_iter().collect::<Vec<_>>(),
            [((0, 46), 2), ((0, 69), 18), ((0, 92), 648), ((24, 0), 5)]
        );
    }

    #[test]
    fn images_have_as_many_frames_as_can_be() {
        for candidate in constructions(EntryPoint::Prepare) {
            let wanted = if candidate.name.contains("wrong") { (13, 1_296, 0) } else { (0, 0, 12_970) };
            assert_eq!(answer(EntryPoint::Prepare, &candidate.name), wanted, "{}", candidate.name);
        }
    }

    /// No run ends early but by a stack that is full or a row that is missing.
    #[test]
    fn runs_go_on_to_their_end() {
        for entry in [EntryPoint::Run, EntryPoint::PricedRun, EntryPoint::LiveRun] {
            for candidate in constructions(entry) {
                let (number, _, count) = answer(entry, &candidate.name);
                match candidate.name.as_str() {
                    "no row of 1,024" => assert_eq!((number, count), (18, 0)),
                    "deep return, operations" => assert_eq!((number, count), (18, 30)),
                    _ => assert_eq!((number, count), (0, WORDS), "{}", candidate.name),
                }
            }
        }
    }

    /// The codes of a construction's live run, by its name.
    fn codes(name: &str) -> Vec<u8> {
        let named = constructions(EntryPoint::LiveRun).find(|candidate| candidate.name == name);
        EntryPoint::LiveRun.make(&Reference, &named.expect("there is one of this name").input).codes
    }

    /// Returns down the stack, one tick after the other, then what is said to follow.
    #[test]
    fn deep_returns_go_down_the_stack() {
        for name in [
            "deep return, last but one of 1,024 function rows",
            "deep return, 1,024 function rows that match",
        ] {
            let codes = codes(name);
            assert!(codes[..30] == [0x03; 30] && codes[30..34] == [0x42, 0x03, 0x42, 0x03], "{name}");
        }
        let codes = codes("deep return over a whole table");
        assert!(codes[..31] == [0x03; 31] && codes[31..].iter().all(|code| *code == 0x00));
    }

    #[test]
    fn only_the_tables_made_for_it_are_no_tables_of_images() {
        for candidate in known(EntryPoint::LiveRun) {
            let whole = candidate.name.contains("whole table");
            assert_eq!(is_table(&candidate.input.frames), !whole, "{}", candidate.name);
        }
    }
}

//! Libraries that count in one wrong way each how often the stack fills: the comparison must find every one.

#[macro_use]
mod common;

use common::is_found;
use reference::answer::refuse_if;
use reference::entry::image_from_text;
use reference::fillings::{each_list, stopped};
use reference::image::Image;
use reference::machine::{self, handles};
use reference::{as_the_reference, fresh_state, Fillings, Library, Refusal, State};

faults! {
    // which lists are tried
    NoTicksAreNoList,
    NoConditionsAreNoList,
    TiesTheNextConditionToTheFirst,
    VariesOneConditionLess,
    VariesTheHighestConditions,
    SetsTheOtherConditions,
    LeavesOutTheListOfZeros,
    LeavesOutTheLastList,
    RepeatsOneWord,
    KeepsConditionsThatRise,
    MakesOneTickMore,
    MakesOneTickLess,
    SwapsTicksAndConditions,
    LeavesOutWordsAbove255,
    // how a list is run
    GoesOnFromTheListBefore,
    StopsAtADrop,
    DropsNothing,
    TakesOnePlaceMore,
    TakesOnePlaceLess,
    TakesThirtyTwoPlaces,
    // what is counted
    CountsAStopOnceForAllThatFollow,
    CountsAListOnceATick,
    CountsAStopOnceATickThatIsLeft,
    CountsStoppedListsAsEndedToo,
    TakesAStopInTheLastTickForAnEnd,
    Counts17As18,
    Counts18As17,
    Counts18AsEnded,
    SwapsEndedAndFull,
    CutsTheCountsTo16Bits,
    // refusals
    Tries28BeforeTheImage,
    Tries28Before14,
    Tries14BeforeTheImage,
    Takes33Places,
    Takes0Places,
    Takes17Conditions,
    Takes65537Ticks,
    Takes65535TicksAtMost,
    Takes15Conditions,
    TakesAProductOf17,
    TakesAProductBelow16,
    WrapsAndTriesTicksOnlyWithoutConditions,
    WrapsAndTriesConditionsOnlyWithoutTicks,
    TriesTheProductAlone,
    TriesNoProductOfManyTicks,
    CutsTheSize,
    CutsTheTicks,
    CutsTheConditions,
}

/// The reference with one fault.
struct Faulty(Fault);

impl Faulty {
    /// Whether so many ticks and conditions are refused by this library.
    fn too_many(&self, ticks: usize, conditions: usize) -> bool {
        let whole = ticks as u128 * conditions as u128;
        let product = match self.0 {
            WrapsAndTriesTicksOnlyWithoutConditions | WrapsAndTriesConditionsOnlyWithoutTicks => {
                ticks.wrapping_mul(conditions) as u128
            }
            TriesNoProductOfManyTicks if ticks > 16 => 0,
            _ => whole,
        };
        let most = match self.0 {
            TakesAProductOf17 => 17,
            TakesAProductBelow16 => 15,
            _ => 16,
        };
        let (most_ticks, most_conditions) = match self.0 {
            TriesTheProductAlone => (usize::MAX, usize::MAX),
            WrapsAndTriesTicksOnlyWithoutConditions if conditions > 0 => (usize::MAX, 16),
            WrapsAndTriesConditionsOnlyWithoutTicks if ticks > 0 => (65_536, usize::MAX),
            Takes17Conditions => (65_536, 17),
            Takes15Conditions => (65_536, 15),
            Takes65537Ticks => (65_537, 16),
            Takes65535TicksAtMost => (65_535, 16),
            _ => (65_536, 16),
        };
        product > most || ticks > most_ticks || conditions > most_conditions
    }

    /// What this library takes for a stack's size.
    fn fresh(&self, size: usize) -> Option<State> {
        match self.0 {
            Takes33Places if size == 33 => fresh_state(32),
            Takes0Places if size == 0 => fresh_state(1),
            _ => fresh_state(size),
        }
    }

    /// What is tried, in this library's order: the image and the fresh state, or the refusal.
    fn tried(
        &self,
        text: &[u8],
        size: usize,
        ticks: usize,
        conditions: usize,
    ) -> Result<(Image, State), Refusal> {
        let many = self.too_many(ticks, conditions);
        refuse_if(Refusal::ManyLists, self.0 == Tries28BeforeTheImage && many)?;
        refuse_if(Refusal::BadSize, self.0 == Tries14BeforeTheImage && self.fresh(size).is_none())?;
        let image = image_from_text(text)?;
        refuse_if(Refusal::ManyLists, self.0 == Tries28Before14 && many)?;
        let fresh = self.fresh(size).ok_or(Refusal::BadSize)?;
        refuse_if(Refusal::ManyLists, many)?;
        Ok((image, fresh))
    }

    /// The words of a list as this library has them, if it has the list.
    fn list(&self, words: &[u16], conditions: usize) -> Option<Vec<u16>> {
        let last = ((1u32 << conditions) - 1) as u16;
        let falls = words.windows(2).any(|pair| pair[1] < pair[0]);
        let left_out = match self.0 {
            NoTicksAreNoList => words.is_empty(),
            NoConditionsAreNoList => conditions == 0,
            LeavesOutTheListOfZeros => words.iter().all(|word| *word == 0),
            LeavesOutTheLastList => words.iter().all(|word| *word == last),
            LeavesOutWordsAbove255 => words.iter().any(|word| *word > 255),
            KeepsConditionsThatRise => falls,
            _ => false,
        };
        if left_out {
            return None;
        }
        let changed = |word: &u16| match self.0 {
            VariesTheHighestConditions if conditions > 0 => *word << (16 - conditions),
            SetsTheOtherConditions => *word | !last,
            VariesOneConditionLess => *word & last >> 1,
            TiesTheNextConditionToTheFirst if conditions < 16 => *word | (*word & 1) << conditions,
            RepeatsOneWord => words[0],
            _ => *word,
        };
        let mut words: Vec<u16> = words.iter().map(changed).collect();
        match self.0 {
            MakesOneTickMore => words.push(0),
            MakesOneTickLess => drop(words.pop()),
            _ => {}
        }
        Some(words)
    }

    /// The state that a list begins with, and the one that the list leaves.
    fn run(&self, image: &Image, begin: &State, words: &[u16]) -> (Option<Refusal>, State) {
        let mut state = *begin;
        for (at, word) in words.iter().enumerate() {
            let full = state.depth == state.size && !handles(image, state.places[0]);
            match machine::tick(image, &state, *word) {
                Ok(advanced) if advanced.code == 0x60 && full && self.0 == StopsAtADrop => {
                    return (Some(Refusal::Full { ticks: at }), state);
                }
                Ok(advanced) => state = advanced.state,
                Err(refusal) => return (Some(refusal.after(at)), state),
            }
        }
        (None, state)
    }

    /// The counts of the lists by this library.
    fn counts(&self, image: &Image, fresh: &State, ticks: usize, conditions: usize) -> Fillings {
        let mut image = image.clone();
        let mut begin = *fresh;
        match self.0 {
            DropsNothing => image.handler = 0,
            TakesOnePlaceMore => begin.size = (begin.size + 1).min(32),
            TakesOnePlaceLess => begin.size = (begin.size - 1).max(1),
            TakesThirtyTwoPlaces => begin.size = 32,
            _ => {}
        }
        let (ticks, conditions) = match self.0 {
            SwapsTicksAndConditions if ticks <= 16 => (conditions, ticks),
            _ => (ticks, conditions),
        };
        let mut counts = Fillings::default();
        each_list(ticks, conditions, |words| {
            let Some(words) = self.list(words, conditions) else {
                return;
            };
            let (stop, after) = self.run(&image, &begin, &words);
            if self.0 == GoesOnFromTheListBefore {
                begin = after;
            }
            self.count(&mut counts, &words, stop);
        });
        counts
    }

    /// Counts one list, which is stopped by a refusal, or not.
    fn count(&self, counts: &mut Fillings, words: &[u16], stop: Option<Refusal>) {
        let Some(refusal) = stop else {
            counts.ended += if self.0 == CountsAListOnceATick { words.len() as u32 } else { 1 };
            return;
        };
        let at = refusal.ticks();
        let lists = match self.0 {
            // only the first of the lists that go on from there
            CountsAStopOnceForAllThatFollow => u32::from(words[at + 1..].iter().all(|word| *word == 0)),
            CountsAStopOnceATickThatIsLeft => (words.len() - at) as u32,
            CountsAListOnceATick => at as u32 + 1,
            _ => 1,
        };
        if self.0 == TakesAStopInTheLastTickForAnEnd && at + 1 == words.len() {
            counts.ended += 1;
            return;
        }
        counts.ended += u32::from(self.0 == CountsStoppedListsAsEndedToo);
        match (self.0, refusal) {
            (Counts17As18, _) => counts.unmatched += lists,
            (Counts18As17, _) => counts.full += lists,
            (Counts18AsEnded, Refusal::NoRow { .. }) => counts.ended += lists,
            (_, Refusal::Full { .. }) => counts.full += lists,
            _ => counts.unmatched += lists,
        }
    }
}

impl Library for Faulty {
    as_the_reference!(chart_calls, check_image, cause, list_rows, minimise, prepare, check_table, sum);
    as_the_reference!(run_calls, rebindings, spins, value_calls);

    fn count_fillings(
        &self,
        text: &[u8],
        size: usize,
        ticks: usize,
        conditions: usize,
    ) -> Result<Fillings, Refusal> {
        let (size, ticks, conditions) = match self.0 {
            CutsTheSize => (size & 0xFF, ticks, conditions),
            CutsTheTicks => (size, ticks & 0xFFFF_FFFF, conditions),
            CutsTheConditions => (size, ticks, conditions & 0xFF),
            _ => (size, ticks, conditions),
        };
        let (image, fresh) = self.tried(text, size, ticks, conditions)?;
        // what a fault lets through is counted as far as it can be
        let (ticks, conditions) = (ticks.min(65_537), conditions.min(16));
        let ticks = if ticks * conditions > 17 { 1 } else { ticks };
        let mut counts = self.counts(&image, &fresh, ticks, conditions);
        match self.0 {
            SwapsEndedAndFull => (counts.ended, counts.full) = (counts.full, counts.ended),
            CutsTheCountsTo16Bits => {
                counts.ended &= 0xFFFF;
                counts.full &= 0xFFFF;
            }
            _ => {}
        }
        Ok(counts)
    }
}

#[test]
fn every_fault_is_found() {
    for &fault in FAULTS {
        is_found(format_args!("{fault:?}"), &Faulty(fault), 20_000);
    }
}

/// What is put together of these parts without a fault is the reference's.
#[test]
fn the_parts_alone_are_right() {
    let image = image_from_text(&entry_text()).expect("an accepted image");
    let fresh = fresh_state(2).expect("2 is a size");
    // a fault in what is refused leaves the counts as they are
    let faulty = Faulty(Tries28Before14);
    each_list(6, 1, |words| {
        assert_eq!(faulty.run(&image, &fresh, words).0, stopped(&image, &fresh, words));
    });
    let counts = faulty.counts(&image, &fresh, 6, 1);
    assert_eq!(counts, Fillings { ended: 32, full: 32, unmatched: 0 });
}

/// The image of chart P.
fn entry_text() -> Vec<u8> {
    let chart = reference::frames::text_of(&comparison::samples::chart_p());
    reference::entry::translated(&chart).expect("a valid chart")
}

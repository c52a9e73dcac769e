//! Labels that act alike, joined: that the grouping meets the rule and none with fewer groups does, that the smaller image is accepted,
//! ticks as the given one and cannot be joined further, and when it is refused.

use std::collections::BTreeSet;

use comparison::generate::{alike, images, runs, states, Random};
use comparison::samples;
use reference::entry::{self, image_from_text};
use reference::frames::text_of;
use reference::image::{image_of, Image, Label, Row, FUNCTION_CALL, PLAIN};
use reference::machine::{fits, tick};
use reference::minimise::{joined, lowest_members, matches, uneven};
use reference::{Refusal, State};

/// Random accepted images of which each word and bit matches one row of each label.
fn each_image(seeds: u64, drawn: fn(&mut Random) -> Image, mut look: impl FnMut(&Image, &mut Random)) {
    for seed in 0..seeds {
        let random = &mut Random::new(seed);
        let image = drawn(random);
        assert_eq!(image_of(&image.frames()).as_ref(), Ok(&image), "seed {seed}");
        if !uneven(&image) {
            look(&image, random);
        }
    }
}

/// The label that a label's row for a word and a bit leads to.
fn led(image: &Image, label: usize, word: u16, bit: u8) -> Option<usize> {
    let own = |row: &&Row| usize::from(row.from) == label && matches(row, word, bit);
    image.rows.iter().find(own).map(|row| usize::from(row.next))
}

/// Whether a grouping, a group for each label, meets the rule, by these words.
fn meets(image: &Image, groups: &[usize], words: &[u16]) -> bool {
    let pairs = (0..groups.len()).flat_map(|b| (0..b).map(move |a| (a, b)));
    pairs.filter(|(a, b)| groups[*a] == groups[*b]).all(|(a, b)| {
        let same_group = |word: u16, bit: u8| match (led(image, a, word, bit), led(image, b, word, bit)) {
            (Some(c), Some(d)) => groups[c] == groups[d],
            _ => true,
        };
        image.labels[a] == image.labels[b] && words.iter().all(|w| same_group(*w, 0) && same_group(*w, 1))
    })
}

/// A word for each choice of the conditions that rows look at, or some of them where there are many.
fn words_of(image: &Image, random: &mut Random) -> Vec<u16> {
    let asked = image.rows.iter().fold(0, |mask, row| mask | row.care);
    if asked.count_ones() > 6 {
        return (0..200).map(|_| random.number() as u16 & asked).collect();
    }
    let all: BTreeSet<u16> = (0..=u16::MAX).map(|word| word & asked).collect();
    all.into_iter().collect()
}

#[test]
fn the_grouping_meets_the_rule() {
    let mut shared = 0;
    each_image(1_500, alike::accepted, |image, random| {
        let groups = lowest_members(image);
        let words = words_of(image, random);
        assert!(meets(image, &groups, &words));
        assert_eq!((groups[0], groups[1]), (0, 1));
        shared += groups.iter().enumerate().filter(|(label, lowest)| label != *lowest).count();
    });
    assert!(shared > 1_000, "too few labels share a group: {shared}");
}

/// Every grouping of so many labels: each label is in the group of a lower one or begins a group.
fn groupings(count: usize) -> Vec<Vec<usize>> {
    let mut all = vec![Vec::new()];
    for label in 0..count {
        let longer = |groups: Vec<usize>| {
            let used: BTreeSet<usize> = groups.iter().copied().chain([label]).collect();
            used.into_iter().map(move |group| [&groups[..], &[group]].concat())
        };
        all = all.into_iter().flat_map(longer).collect();
    }
    all
}

#[test]
fn no_grouping_that_meets_the_rule_has_fewer_groups() {
    let size = |groups: &[usize]| groups.iter().collect::<BTreeSet<_>>().len();
    let (mut tried, mut smaller) = (0, 0);
    each_image(1_000, alike::small, |image, random| {
        let words = words_of(image, random);
        let all = groupings(image.labels.len());
        let fewest =
            all.iter().filter(|groups| meets(image, groups, &words)).map(|groups| size(groups)).min();
        let made = size(&lowest_members(image));
        assert_eq!(Some(made), fewest);
        tried += 1;
        smaller += usize::from(made < image.labels.len());
    });
    assert!(tried > 900 && smaller > 100, "{smaller} of {tried}");
}

#[test]
fn the_smaller_image_is_accepted_and_joined_again_it_is_itself() {
    let (mut tried, mut fewer) = (0, 0);
    each_image(1_500, alike::accepted, |image, _| {
        let smaller = joined(image);
        assert_eq!(image_of(&smaller.frames()), Ok(smaller.clone()));
        assert!(!uneven(&smaller));
        assert_eq!(joined(&smaller), smaller);
        tried += 1;
        fewer += usize::from(smaller.labels.len() < image.labels.len());
    });
    assert!(tried > 1_000 && fewer > 500, "{fewer} of {tried}");
}

/// The state with its labels renumbered.
fn renumbered(image: &Image, state: &State) -> State {
    let lowest = lowest_members(image);
    let kept: Vec<usize> = (0..lowest.len()).filter(|label| lowest[*label] == *label).collect();
    let mut after = *state;
    for place in &mut after.places[..usize::from(state.depth)] {
        let group = lowest[usize::from(*place)];
        *place = kept.iter().position(|label| *label == group).expect("it is kept") as u8;
    }
    after
}

#[test]
fn the_smaller_image_ticks_as_the_given_one() {
    let (mut ticks, mut drops) = (0, 0);
    each_image(3_000, alike::accepted, |image, random| {
        let smaller = joined(image);
        let mut state = states::fitting(random, image.shape());
        for word in runs::words(random, 12) {
            let small = renumbered(image, &state);
            assert!(fits(&smaller, &small));
            if random.once_in(3) && image.entries.len() > 1 {
                let (number, scheme) =
                    (random.within(2, image.entries.len()), random.within(2, image.entries.len()));
                if number != usize::from(image.handler) {
                    state.serving[number - 1] = scheme as u8;
                }
            }
            let small = renumbered(image, &state);
            match (tick(image, &state, word), tick(&smaller, &small, word)) {
                (Ok(made), Ok(other)) => {
                    assert_eq!((made.mask, made.code), (other.mask, other.code));
                    assert_eq!(renumbered(image, &made.state), other.state);
                    state = made.state;
                    ticks += 1;
                    drops += usize::from(made.code == 0x60);
                }
                (made, other) => {
                    let full = Some(Refusal::Full { ticks: 0 });
                    assert_eq!((made.err(), other.err()), (full, full));
                    return;
                }
            }
        }
    });
    assert!(ticks > 5_000 && drops > 50, "{ticks} ticks, {drops} drops");
}

#[test]
fn no_translated_chart_is_refused_with_23() {
    for seed in 0..1_000 {
        let (_, image) = images::translated(&mut Random::new(seed));
        assert!(!uneven(&image), "seed {seed}");
    }
}

/// One scheme with these rows of one plain label, or of one that calls the function 2.
fn with_rows(kind: u8, rows: &[(u16, u16, u8)]) -> Image {
    let called = if kind == PLAIN { 0 } else { 2 };
    let labels = vec![Label::ZERO, Label::ONE, Label { kind, called, owner: 1, result: 0, mask: 0 }];
    let row = |&(care, values, function_bit)| Row { from: 2, care, values, function_bit, next: 0 };
    Image { handler: 0, entries: vec![2, 1], labels, rows: rows.iter().map(row).collect() }
}

#[test]
fn a_word_and_bit_that_match_no_row_or_two_are_refused() {
    let refused = |kind, rows: &[(u16, u16, u8)]| {
        let text = text_of(&with_rows(kind, rows).frames());
        match entry::minimise(&text, &mut [0; 500]) {
            Ok(length) => {
                assert_eq!(length, text.len());
                0
            }
            Err(refusal) => {
                assert_eq!(refusal, Refusal::Uneven);
                23
            }
        }
    };
    assert_eq!(refused(PLAIN, &[]), 23);
    assert_eq!(refused(PLAIN, &[(0, 0, 2)]), 0);
    assert_eq!(refused(PLAIN, &[(0, 0, 2), (0, 0, 2)]), 23);
    assert_eq!(refused(PLAIN, &[(1, 0, 2)]), 23);
    assert_eq!(refused(PLAIN, &[(1, 0, 2), (1, 1, 2)]), 0);
    assert_eq!(refused(PLAIN, &[(0x8000, 0, 2), (1, 1, 2)]), 23);
    assert_eq!(refused(PLAIN, &[(0, 0, 2), (0xFFFF, 0x1234, 2)]), 23);
    assert_eq!(refused(FUNCTION_CALL, &[(0, 0, 2)]), 0);
    assert_eq!(refused(FUNCTION_CALL, &[(0, 0, 1)]), 23);
    assert_eq!(refused(FUNCTION_CALL, &[(0, 0, 0), (0, 0, 1)]), 0);
    assert_eq!(refused(FUNCTION_CALL, &[(0, 0, 2), (1, 1, 1)]), 23);
    assert_eq!(refused(FUNCTION_CALL, &[(0, 0, 0), (1, 1, 1), (1, 0, 1)]), 0);
}

/// A condition between two operations of one mask, which both lead to the End: they become one label, and what is past the text stays.
#[test]
fn two_operations_of_one_mask_become_one() {
    let image = entry::translated(&text_of(&samples::alike())).expect("a valid chart");
    let smaller = entry::minimised(&image).expect("a translated chart");
    let wanted = image_from_text(&smaller).expect("an image");
    assert_eq!((image_from_text(&image).expect("an image").labels.len(), wanted.labels.len()), (5, 4));
    assert!(wanted.rows[0].next == 3 && wanted.rows[1].next == 3 && wanted.rows.len() == 3);
    let mut out = vec![9; image.len()];
    assert_eq!(entry::minimise(&image, &mut out), Ok(smaller.len()));
    assert_eq!(out[..smaller.len()], smaller);
    assert!(out[smaller.len()..].iter().all(|byte| *byte == 9));
    let mut short = vec![9; smaller.len() - 1];
    assert_eq!(entry::minimise(&image, &mut short), Err(Refusal::NoRoom));
    assert!(short.iter().all(|byte| *byte == 9));
}

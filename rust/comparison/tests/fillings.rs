//! How often the stack fills: which lists of words are tried, charts and a patched image counted by hand, that the counts sum to the
//! lists and are those of the walk, and when it is refused.

use std::collections::BTreeSet;

use comparison::generate::{fillings, images, Random};
use comparison::samples;
use fast::Fast;
use reference::check::chart_of;
use reference::entry::{self, image_from_text, translated};
use reference::fillings::{each_list, too_many, walked};
use reference::frames::{text_of, Frame};
use reference::image::Image;
use reference::{Fillings, Library, Refusal};

/// Ended, full and unmatched, of a call that is not refused.
fn counts(image: &[u8], size: usize, ticks: usize, conditions: usize) -> (u32, u32, u32) {
    let counted = entry::count_fillings(image, size, ticks, conditions).expect("it is not refused");
    (counted.ended, counted.full, counted.unmatched)
}

fn image_text(records: &[Frame]) -> Vec<u8> {
    translated(&text_of(records)).expect("a valid chart")
}

/// The image of chart P without the rows that these tests hold for.
fn chart_p_without(row: impl Fn(u8, u16) -> bool) -> Vec<u8> {
    let mut image: Image = image_from_text(&image_text(&samples::chart_p())).expect("an accepted image");
    let before = image.rows.len();
    image.rows.retain(|each| !row(each.from, each.values));
    assert_eq!(image.rows.len() + 1, before, "one row is taken out");
    text_of(&image.frames())
}

#[test]
fn every_list_of_the_conditions_is_tried_once() {
    for (ticks, conditions) in [(0, 0), (0, 16), (1, 0), (7, 0), (1, 3), (3, 1), (2, 4), (4, 2), (5, 3)] {
        let mut lists = BTreeSet::new();
        let mut tried = 0;
        each_list(ticks, conditions, |words| {
            assert_eq!(words.len(), ticks);
            assert!(words.iter().all(|word| usize::from(*word) < 1 << conditions));
            lists.insert(words.to_vec());
            tried += 1;
        });
        assert_eq!((lists.len(), tried), (1 << (ticks * conditions), 1 << (ticks * conditions)));
    }
    let mut words = 0u32;
    each_list(1, 16, |list| {
        assert_eq!(u32::from(list[0]), words);
        words += 1;
    });
    assert_eq!(words, 65_536);
}

/// Chart P goes home, calls, tests condition 0 and, if it is 1, calls again: on one place the second tick is too deep, on two the
/// fourth by word 2, or the eighth by word 6.
#[test]
fn chart_p_is_counted_by_hand() {
    let image = image_text(&samples::chart_p());
    for (size, ticks, wanted) in [
        (1, 0, (1, 0, 0)),
        (1, 1, (2, 0, 0)),
        (1, 2, (0, 4, 0)),
        (1, 16, (0, 65_536, 0)),
        (2, 0, (1, 0, 0)),
        (2, 3, (8, 0, 0)),
        (2, 4, (8, 8, 0)),
        (2, 7, (64, 64, 0)),
        (2, 8, (64, 192, 0)),
        (3, 5, (32, 0, 0)),
        (3, 6, (48, 16, 0)),
        // word 2 and word 4; or word 6 and word 8, where word 2 is 0
        (3, 10, (640, 384, 0)),
        (32, 16, (65_536, 0, 0)),
    ] {
        assert_eq!(counts(&image, size, ticks, 1), wanted, "{size} places, {ticks} ticks");
    }
    // condition 1 is tested nowhere, and each list of condition 0 counts for all of its values
    assert_eq!(counts(&image, 2, 4, 2), (128, 128, 0));
    assert_eq!(counts(&image, 2, 8, 2), (64 * 256, 192 * 256, 0));
    assert_eq!(counts(&image, 1, 1, 16), (65_536, 0, 0));
}

/// Without conditions there is one list, of words 0, and without ticks one, the empty one.
#[test]
fn there_is_always_a_list() {
    let image = image_text(&samples::chart_p());
    for conditions in 0..=16 {
        assert_eq!(counts(&image, 1, 0, conditions), (1, 0, 0));
    }
    for ticks in [0, 1, 4, 17, 65_536] {
        assert_eq!(counts(&image, 2, ticks, 0), (1, 0, 0), "{ticks} ticks");
    }
    assert_eq!(counts(&image, 1, 65_536, 0), (0, 1, 0));
}

/// A chart that goes home, tests a condition by word 1 and calls if it is 1, which is too deep on one place: half of the lists are
/// stopped where that condition is among the first so many, and none where it is not and so is 0 in every word.
#[test]
fn other_conditions_stay_0() {
    for condition in 0..5 {
        let image = image_text(&[
            [0, 1, 0, 1, 0, 0, 0, 0, 0, 0],
            [3, 1, condition, 2, 3, 0, 0, 0, 0, 0],
            [1, 1, 0, 0, 0, 0, 0, 0, 0, 0],
            [2, 1, 2, 2, 0, 0, 0, 0, 0, 1],
            [0, 2, 0, 5, 0, 0, 0, 0, 0, 0],
            [1, 2, 0, 0, 0, 0, 0, 0, 0, 0],
        ]);
        for conditions in 0..=5 {
            let lists = 1 << (3 * conditions);
            let full = if usize::from(condition) < conditions { lists / 2 } else { 0 };
            assert_eq!(
                counts(&image, 1, 3, conditions),
                (lists - full, full, 0),
                "{condition}, {conditions}"
            );
            assert_eq!(counts(&image, 2, 3, conditions), (lists, 0, 0), "{condition}, {conditions}");
        }
    }
}

/// A drop is no stop; a handler that calls at a full stack is.
#[test]
fn a_drop_to_the_handler_stops_no_list() {
    let image = image_text(&samples::with_handler());
    for size in [1, 2, 3, 32] {
        assert_eq!(counts(&image, size, 16, 1), (65_536, 0, 0), "{size} places");
        assert_eq!(counts(&image, size, 500, 0), (1, 0, 0), "{size} places");
    }
    let mut records = samples::with_handler();
    // the handler calls scheme 2: home, so many calls, the drop's tick, as many calls again, the last of them too deep
    records[7][2] = 2;
    let image = image_text(&records);
    for size in 1..=6 {
        let stop = 2 * size + 1;
        assert_eq!(counts(&image, size, stop - 1, 1), (1 << (stop - 1), 0, 0), "{size} places");
        assert_eq!(counts(&image, size, stop, 1), (0, 1 << stop, 0), "{size} places");
    }
}

/// Chart P by a patched image. Without the condition's row for a 1, words 2 and 6 stop a list by 18 if they are 1; without the row of
/// the first call, its return gets 18.
#[test]
fn a_patched_image_is_counted_by_hand() {
    let image = chart_p_without(|from, values| from == 3 && values == 1);
    assert_eq!(counts(&image, 2, 2, 1), (4, 0, 0));
    assert_eq!(counts(&image, 2, 3, 1), (4, 0, 4));
    assert_eq!(counts(&image, 2, 8, 1), (64, 0, 192));
    assert_eq!(counts(&image, 1, 8, 1), (0, 256, 0));
    assert_eq!(counts(&image, 2, 60, 0), (1, 0, 0));
    let image = chart_p_without(|from, _| from == 2);
    assert_eq!(counts(&image, 2, 3, 1), (8, 0, 0));
    assert_eq!(counts(&image, 2, 4, 1), (0, 8, 8));
    assert_eq!(counts(&image, 2, 4, 3), (0, 2_048, 2_048));
    assert_eq!(counts(&image, 2, 4, 0), (0, 0, 1));
}

const MANY: Result<Fillings, Refusal> = Err(Refusal::ManyLists);

/// Each ground of 28 by itself, and products that are small where they wrap or are cut.
#[test]
fn each_ground_is_refused_by_itself() {
    let image = image_text(&samples::chart_p());
    let refuses = |ticks: usize, conditions: usize| {
        for size in [1, 2, 32] {
            assert_eq!(entry::count_fillings(&image, size, ticks, conditions), MANY);
            assert_eq!(Fast.count_fillings(&image, size, ticks, conditions), MANY);
        }
    };
    // the product
    for (ticks, conditions) in [(17, 1), (9, 2), (6, 3), (2, 9), (2, 16), (65_536, 1), (4_096, 16)] {
        assert!(ticks <= 65_536 && conditions <= 16);
        refuses(ticks, conditions);
    }
    // the conditions, without a tick
    for conditions in [17, 18, 255, 256, 257, 65_536, 1 << 32, usize::MAX] {
        refuses(0, conditions);
    }
    // the ticks, without a condition
    for ticks in [65_537, 65_538, 131_072, 1 << 32, (1 << 32) + 1, usize::MAX] {
        refuses(ticks, 0);
    }
    for (ticks, conditions) in [
        (1 << 63, 2),
        (1 << 60, 16),
        (1 << 32, 1 << 32),
        (1 << 32, 1),
        ((1 << 63) + 1, 2),
        (1, (1 << 32) + 1),
        (2, 1 << 63),
        (usize::MAX, usize::MAX),
        (usize::MAX, 1),
        (1, usize::MAX),
    ] {
        refuses(ticks, conditions);
    }
    for (ticks, conditions) in [(16, 1), (8, 2), (5, 3), (1, 16), (0, 16), (65_536, 0), (0, 0)] {
        assert!(!too_many(ticks, conditions));
    }
}

/// What the image check tries comes first, then 14, then 28.
#[test]
fn refusals_are_tried_in_their_order() {
    let image = image_text(&samples::chart_p());
    let count = entry::count_fillings;
    for size in [0, 33, 256 + 1, usize::MAX] {
        for (ticks, conditions) in [(1, 1), (17, 1), (usize::MAX, usize::MAX)] {
            assert_eq!(count(&image[..5], size, ticks, conditions), Err(Refusal::BadLength));
            assert_eq!(count(&image, size, ticks, conditions), Err(Refusal::BadSize));
        }
    }
    assert_eq!(count(&image[..5], 2, 17, 1), Err(Refusal::BadLength));
    let mut characters = image.clone();
    characters[23] = b'x';
    assert_eq!(count(&characters, 0, 17, 1), Err(Refusal::BadCharacter(1)));
    assert_eq!(count(&characters, 2, 4, 1), Err(Refusal::BadCharacter(1)));
}

/// On images of any sort the three counts sum to the lists, and the two programs count alike.
#[test]
fn the_counts_sum_to_the_lists() {
    let (mut full, mut unmatched, mut both, mut all) = (0, 0, 0, 0);
    for seed in 0..3_000 {
        let random = &mut Random::new(seed);
        let text = text_of(&fillings::image(random).frames());
        let (size, ticks, conditions) = fillings::asked(random);
        let found = entry::count_fillings(&text, size, ticks, conditions);
        assert_eq!(found, Fast.count_fillings(&text, size, ticks, conditions), "seed {seed}");
        let Ok(found) = found else { continue };
        assert_eq!(found.ended + found.full + found.unmatched, 1 << (ticks * conditions), "seed {seed}");
        let some = |counts: &[u32]| usize::from(counts.iter().all(|count| *count > 0));
        full += some(&[found.ended, found.full]);
        unmatched += some(&[found.ended, found.unmatched]);
        both += some(&[found.full, found.unmatched]);
        all += some(&[found.ended, found.full, found.unmatched]);
    }
    println!("{full} {unmatched} {both} {all}");
    assert!(full > 150 && unmatched > 100 && both > 20 && all > 10, "{full} {unmatched} {both} {all}");
}

/// On a translated chart the third count is 0, and the second is that of the lists whose walk goes too deep.
#[test]
fn on_a_translated_chart_the_walk_says_how_often_the_stack_fills() {
    let (mut some, mut handled) = (0, 0);
    for seed in 0..1_500 {
        let random = &mut Random::new(seed);
        let records = if random.once_in(2) { fillings::forks(random) } else { images::translated(random).0 };
        let image = translated(&text_of(&records)).expect("a chart that translates");
        let size = random.pick(&[1, 1, 2, 2, 3, 4]);
        let (ticks, conditions) = random.pick(&[(3, 2), (5, 2), (8, 1), (10, 1), (4, 2), (60, 0), (2, 5)]);
        let found = entry::count_fillings(&image, size, ticks, conditions);
        let chart = chart_of(&records).expect("a valid chart");
        let full = walked(&chart, size, ticks, conditions);
        let ended = (1 << (ticks * conditions)) - full;
        assert_eq!(found, Ok(Fillings { ended, full, unmatched: 0 }), "seed {seed}");
        some += usize::from(full > 0 && ended > 0);
        handled += usize::from(full > 0 && ended > 0 && chart.handler().is_some());
    }
    println!("{some} {handled}");
    assert!(some > 100 && handled > 30, "{some} {handled}");
}

/// The large charts of the samples, on stacks of 1 to 4 places.
#[test]
fn samples_fill_the_stack_as_their_walks_say() {
    for (name, records) in samples::named_charts() {
        let Ok(image) = translated(&text_of(&records)) else { continue };
        let chart = chart_of(&records).expect("a valid chart");
        for size in 1..=4 {
            let found = entry::count_fillings(&image, size, 4, 2);
            let full = walked(&chart, size, 4, 2);
            let wanted = Ok(Fillings { ended: 256 - full, full, unmatched: 0 });
            assert_eq!(found, wanted, "{name} on {size} places");
            assert_eq!(Fast.count_fillings(&image, size, 4, 2), wanted, "{name} on {size} places");
        }
    }
}

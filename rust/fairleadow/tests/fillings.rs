//! How often the stack fills, by the C function itself and by the library: the three counts are written in every case, and as many lists
//! as there may be are counted as the reference counts them.

use std::time::Instant;

use comparison::samples::{chart_p, with_handler};
use proved::{c, Library, Proved};
use reference::check::chart_of;
use reference::entry::translated;
use reference::fillings::walked;
use reference::frames::{text_of, Frame};
use reference::{Fillings, Reference};

/// Number, index and count, and the three counts, which are filled before.
type Told = ((u8, u64, u64), [u32; 3]);

fn counted(image: &[u8], size: u64, ticks: u64, conditions: u64) -> Told {
    let (mut index, mut count, mut counts) = (9, 9, [u32::MAX; 3]);
    let [ended, full, unmatched] = &mut counts;
    // SAFETY: all that the call is handed lives here and is lent to it alone.
    let number = unsafe {
        c::fairleadow_count_fillings(
            image.as_ptr(),
            image.len() as u64,
            size,
            ticks,
            conditions,
            ended,
            full,
            unmatched,
            &mut index,
            &mut count,
        )
    } as u8;
    ((number, index, count), counts)
}

fn image_of(records: &[Frame]) -> Vec<u8> {
    translated(&text_of(records)).expect("a valid chart")
}

#[test]
fn chart_p_is_counted() {
    let image = image_of(&chart_p());
    for (size, ticks, conditions, wanted) in [
        (1, 1, 1, [2, 0, 0]),
        (1, 2, 1, [0, 4, 0]),
        (2, 8, 1, [64, 192, 0]),
        (2, 4, 2, [128, 128, 0]),
        (3, 10, 1, [640, 384, 0]),
        (2, 0, 16, [1, 0, 0]),
        (2, 65_536, 0, [1, 0, 0]),
        (1, 65_536, 0, [0, 1, 0]),
        (1, 1, 16, [65_536, 0, 0]),
        (1, 16, 1, [0, 65_536, 0]),
    ] {
        assert_eq!(
            counted(&image, size, ticks, conditions),
            ((0, 0, 0), wanted),
            "{size} {ticks} {conditions}"
        );
    }
    let image = image_of(&with_handler());
    for size in [1, 2, 32] {
        assert_eq!(counted(&image, size, 16, 1), ((0, 0, 0), [65_536, 0, 0]), "a drop is no stop");
    }
}

/// Each refusal writes three zeros: 28 by each of its grounds alone and by products that wrap, 14 before it, and the image before both.
#[test]
fn a_refusal_counts_nothing() {
    let image = image_of(&chart_p());
    let refused = |number: u8| ((number, 0, 0), [0; 3]);
    for (ticks, conditions) in [
        (17, 1),
        (6, 3),
        (65_536, 1),
        (0, 17),
        (65_537, 0),
        (1 << 63, 2),
        ((1 << 63) + 1, 2),
        (1 << 60, 16),
        (1 << 32, 1 << 32),
        (0, u64::MAX),
        (u64::MAX, 0),
        (u64::MAX, u64::MAX),
        ((1 << 32) + 4, 1),
        (4, (1 << 32) + 1),
    ] {
        assert_eq!(counted(&image, 2, ticks, conditions), refused(28), "{ticks} {conditions}");
        for size in [0, 33, 258, (1 << 32) + 2, u64::MAX] {
            assert_eq!(counted(&image, size, ticks, conditions), refused(14), "{size}");
            assert_eq!(counted(&image[1..], size, ticks, conditions), refused(1), "{size}");
        }
    }
    let mut wrong = image.clone();
    wrong[46] = b'x';
    assert_eq!(counted(&wrong, 0, 17, 1), ((2, 2, 0), [0; 3]));
    assert_eq!(counted(&wrong, 2, 4, 1), ((2, 2, 0), [0; 3]));
}

/// A chart on which some lists fill the stack, and one on which its handler does, with as many lists as there may be; the walk says the
/// same. Prints how long one takes at most.
#[test]
fn as_many_lists_as_there_may_be() {
    let mut handled = with_handler();
    // the handler calls scheme 2, which calls itself
    handled[7][2] = 2;
    let mut longest = 0.0f64;
    for (name, records) in [("chart P", chart_p()), ("a handler that calls", handled)] {
        let (image, chart) = (image_of(&records), chart_of(&records).expect("a valid chart"));
        for (ticks, conditions) in [(16, 1), (8, 2), (5, 3), (4, 4), (2, 8), (1, 16), (0, 16), (65_536, 0)] {
            for size in 1..=4 {
                let begun = Instant::now();
                let got = Proved.count_fillings(&image, size, ticks, conditions);
                longest = longest.max(begun.elapsed().as_secs_f64());
                let place = format!("{name}, {size} places, {ticks} ticks, {conditions} conditions");
                assert_eq!(got, Reference.count_fillings(&image, size, ticks, conditions), "{place}");
                let Fillings { ended, full, unmatched } = got.expect(&place);
                assert_eq!((ended + full, unmatched), (1 << (ticks * conditions), 0), "{place}");
                // the walk goes on past a call that is too deep, and never comes back from that of scheme 2
                if ticks <= 16 {
                    assert_eq!(full, walked(&chart, size, ticks, conditions), "{place}");
                }
            }
        }
    }
    println!("the longest took {longest:.3} seconds");
}

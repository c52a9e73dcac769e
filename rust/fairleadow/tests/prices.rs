//! Priced runs by the C function itself: the price is written in every case, and what a refusal leaves.

use comparison::samples::{chart_p, one_label};
use proved::c;
use reference::entry::{image_from_text, translated};
use reference::frames::text_of;

const MOST: usize = 65_536;

/// What a call answered and left: number, index, count and price, the state, and both buffers.
type Told = ((u8, u64, u64, u64), c::State, Vec<u32>, Vec<u8>);

/// A priced run with room for so many ticks; what it is lent for writing is filled before.
fn priced(image: &[u8], start: &c::State, prices: &[u16; 32], words: &[u16], room: [usize; 2]) -> Told {
    let (mut state, mut masks, mut codes) = (*start, vec![0xA5A5_A5A5; room[0]], vec![0xA5; room[1]]);
    let (mut price, mut index, mut count) = (u64::MAX, 9, 9);
    let kept = *prices;
    // SAFETY: all that the call is handed lives here and is lent to it alone.
    let number = unsafe {
        c::fairleadow_priced_run(
            image.as_ptr(),
            image.len() as u64,
            &mut state,
            prices.as_ptr(),
            words.as_ptr(),
            words.len() as u64,
            masks.as_mut_ptr(),
            masks.len() as u64,
            codes.as_mut_ptr(),
            codes.len() as u64,
            &mut price,
            &mut index,
            &mut count,
        )
    } as u8;
    assert_eq!(*prices, kept, "prices are only read");
    ((number, index, count, price), state, masks, codes)
}

fn fresh(size: u64) -> c::State {
    let mut state = c::State::NONE;
    // SAFETY: all that the call is handed lives here and is lent to it alone.
    assert_eq!(unsafe { c::fairleadow_fresh(size, &mut state, &mut 9, &mut 9) } as u8, 0);
    state
}

fn image_p() -> Vec<u8> {
    translated(&text_of(&chart_p())).expect("a valid chart")
}

/// Micro operation 0 is 1.50 cents a tick, micro operation 1 is 10 cents.
fn two_prices() -> [u16; 32] {
    let mut prices = [0; 32];
    (prices[0], prices[1]) = (150, 1_000);
    prices
}

#[test]
fn the_price_of_chart_p() {
    let (image, words) = (image_p(), [0, 0, 1, 0, 0, 0, 0, 0]);
    let (answer, _, masks, _) = priced(&image, &fresh(3), &two_prices(), &words, [8, 8]);
    assert_eq!(answer, (0, 0, 8, 12));
    assert_eq!(masks, [0, 1, 0, 2, 0, 0, 0, 0]);
    // the third call finds the stack full: its mask is not priced
    let (answer, _, masks, codes) = priced(&image, &fresh(2), &two_prices(), &words, [8, 8]);
    assert_eq!(answer, (17, 0, 3, 2));
    assert_eq!(masks[..4], [0, 1, 0, 0xA5A5_A5A5]);
    assert_eq!(codes[..4], [0x04, 0x12, 0x00, 0xA5]);
    // one that stops before any output is on costs nothing
    assert_eq!(priced(&image, &fresh(1), &two_prices(), &words, [8, 8]).0, (17, 0, 1, 0));
    assert_eq!(priced(&image, &fresh(1), &two_prices(), &[], [0, 0]).0, (0, 0, 0, 0));
}

/// A row is taken out of the image, so that a word meets none.
#[test]
fn a_run_that_finds_no_row_is_priced_as_far_as_it_came() {
    let mut image = image_from_text(&image_p()).expect("an image");
    image.rows.retain(|row| row.from != 4);
    let image = text_of(&image.frames());
    let (answer, ..) = priced(&image, &fresh(3), &two_prices(), &[0, 0, 1, 0, 0, 0], [6, 6]);
    assert_eq!(answer, (18, 0, 5, 12));
}

#[test]
fn refusals_write_a_price_of_0_and_nothing_else() {
    let (image, mut state, words) = (image_p(), fresh(3), vec![0; MOST + 1]);
    // a run would write this byte as 1
    state.results[4] = 7;
    let mut unfit = state;
    unfit.places[20] = 1;
    for (image, state, words, room, number) in [
        (&image[1..], state, &words[..2], [2, 2], 1),
        (&image[..], unfit, &words[..2], [2, 2], 15),
        (&image[..], unfit, &words[..], [0, 0], 15),
        (&image[..], state, &words[..], [0, 0], 27),
        (&image[..], state, &words[..], [MOST + 1, MOST + 1], 27),
        (&image[..], state, &words[1..], [MOST - 1, MOST], 16),
        (&image[..], state, &words[1..], [MOST, 0], 16),
    ] {
        let (answer, after, masks, codes) = priced(image, &state, &[u16::MAX; 32], words, room);
        assert_eq!(answer, (number, 0, 0, 0));
        assert_eq!(after, state);
        assert!(masks.iter().all(|mask| *mask == 0xA5A5_A5A5) && codes.iter().all(|code| *code == 0xA5));
    }
}

/// One label with all micro operations on that leads to itself, for as many ticks as there may be: more than 32 bits hold.
#[test]
fn the_largest_price() {
    let mut image = image_from_text(&translated(&text_of(&one_label())).expect("a valid chart")).expect("it");
    image.labels[2].mask = u32::MAX;
    image.rows.truncate(1);
    (image.rows[0].care, image.rows[0].values, image.rows[0].next) = (0, 0, 2);
    let mut state = fresh(1);
    state.places[0] = 2;
    let words = vec![0; MOST];
    let image = text_of(&image.frames());
    let (answer, after, masks, codes) = priced(&image, &state, &[u16::MAX; 32], &words, [MOST, MOST]);
    assert_eq!(answer, (0, 0, MOST as u64, 1_374_368_563));
    assert_eq!(after, state);
    assert!(masks.iter().all(|mask| *mask == u32::MAX) && codes.iter().all(|code| *code == 0));
}

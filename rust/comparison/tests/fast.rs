//! The functions written for speed agree with the plain ones.

use comparison::compare::compare;
use comparison::generate::{images, runs, states, Random};
use fast::{run_on, Fast};
use reference::entry;
use reference::frames::text_of;
use reference::Told;

#[test]
fn fast_agrees_with_the_reference() {
    compare(&Fast, 1_000_000, 30_000).unwrap_or_else(|difference| panic!("{difference}"));
}

#[test]
fn a_scan_of_all_rows_agrees_with_the_reference() {
    let mut answers = [0; 19];
    for seed in 0..5_000 {
        let random = &mut Random::new(seed);
        let image = images::accepted(random);
        let state = states::state(random, image.shape());
        let (text, run) = (text_of(&image.frames()), runs::run(random, 30));
        let (mut masks, mut codes) = (run.masks.clone(), run.codes.clone());
        let (mut scanned_masks, mut scanned_codes) = (run.masks.clone(), run.codes.clone());
        let (mut after, mut scanned_after) = (state, state);
        let ran = entry::run(&text, &mut after, &run.words, &mut masks, &mut codes);
        let scanned =
            run_on::<true>(&text, &mut scanned_after, &run.words, &mut scanned_masks, &mut scanned_codes);
        let left = (scanned, scanned_after, scanned_masks, scanned_codes);
        assert_eq!(left, (ran, after, masks, codes), "seed {seed}");
        answers[usize::from(ran.number())] += 1;
    }
    assert!([0, 15, 16, 17, 18].iter().all(|number| answers[*number] > 100), "{answers:?}");
}

//! The reference against itself on random inputs: round trips, and the machine against the walk.

use comparison::generate::{charts, damage, images, ladders, letters, runs, states, Random};
use reference::check::chart_of;
use reference::expectation::{expected, Outcome, Step};
use reference::frames::{frames_of, text_of, CHART_TEXT, IMAGE_TEXT};
use reference::image::{Image, FUNCTION_CALL};
use reference::{entry, fresh_state, image, machine, translator, Refusal, State, Told};

const CASES: u64 = 3_000;

#[test]
fn generated_charts_are_valid() {
    for seed in 0..CASES {
        let records = charts::chart(&mut Random::new(seed));
        assert!(records.len() <= 256);
        assert!(chart_of(&records).is_ok(), "seed {seed}");
    }
}

#[test]
fn records_and_text_turn_into_each_other() {
    for seed in 0..CASES {
        let records = charts::chart(&mut Random::new(seed));
        let text = text_of(&records);
        assert_eq!(frames_of(&text, CHART_TEXT).unwrap(), records);
        let mut read = vec![0; 10 * records.len()];
        assert_eq!(entry::read_chart(&text, &mut read), Ok(records.len()));
        assert_eq!(read, records.concat());
        let mut written = vec![0; text.len()];
        assert_eq!(entry::write_chart(&read, &mut written), Ok(text.len()));
        assert_eq!(written, text);
    }
}

#[test]
fn a_text_comes_back_in_capitals() {
    for seed in 0..CASES {
        let random = &mut Random::new(seed);
        let records = charts::chart(random);
        let text = letters::sizes(random, text_of(&records));
        assert_eq!(frames_of(&text, CHART_TEXT).unwrap(), records, "seed {seed}");
        assert_eq!(text_of(&records), text.to_ascii_uppercase(), "seed {seed}");
    }
}

#[test]
fn a_text_is_read_as_in_capitals() {
    for seed in 0..CASES {
        let random = &mut Random::new(seed);
        let text = text_of(&charts::chart(random));
        let sized = letters::sizes(random, text);
        let damaged = damage::text(random, &sized);
        let capitals = damaged.to_ascii_uppercase();
        assert_eq!(frames_of(&damaged, CHART_TEXT), frames_of(&capitals, CHART_TEXT), "seed {seed}");
    }
}

#[test]
fn ladders_have_the_rows_asked_for() {
    for rows in (1..=1_024).step_by(31).chain([1_023, 1_024]) {
        let records = ladders::with_rows(&mut Random::new(rows as u64), rows);
        assert_eq!(translator::row_count(&chart_of(&records).unwrap()), rows);
    }
    let records = ladders::with_rows(&mut Random::new(1), 1_025);
    let refusal = translator::image_of(&chart_of(&records).unwrap()).unwrap_err();
    assert_eq!(refusal, Refusal::ManyRows);
}

#[test]
fn translated_images_are_accepted_and_decode() {
    for seed in 0..CASES {
        let (_, image) = images::translated(&mut Random::new(seed));
        let text = text_of(&image.frames());
        assert!(text.len() <= IMAGE_TEXT);
        assert_eq!(entry::image_from_text(&text).unwrap(), image, "seed {seed}");
    }
}

#[test]
fn invented_states_fit() {
    for seed in 0..CASES {
        let mut random = Random::new(seed);
        let image = images::accepted(&mut random);
        let state = states::fitting(&mut random, image.shape());
        assert!(machine::fits(&image, &state), "seed {seed}");
    }
}

/// Looks at accepted images, each with a state that fits it.
fn each_fitting(mut look: impl FnMut(u64, &mut Random, &Image, State)) {
    for seed in 0..CASES {
        let random = &mut Random::new(seed);
        let image = images::accepted(random);
        if image::image_of(&image.frames()).is_ok() {
            let state = states::fitting(random, image.shape());
            look(seed, random, &image, state);
        }
    }
}

#[test]
fn a_tick_keeps_a_fitting_state_fitting() {
    each_fitting(|seed, random, image, mut state| {
        for word in runs::words(random, 100) {
            let Ok(advanced) = machine::tick(image, &state, word) else {
                break;
            };
            state = advanced.state;
            assert!(machine::fits(image, &state), "seed {seed}");
        }
    });
}

#[test]
fn exactly_one_row_of_a_translated_image_matches() {
    for seed in 0..CASES {
        let mut random = Random::new(seed);
        let (_, image) = images::translated(&mut random);
        for label in 2..image.labels.len() {
            let bits: &[u8] = if image.labels[label].kind == FUNCTION_CALL { &[0, 1] } else { &[2] };
            let word = random.number() as u16;
            for bit in bits {
                let matching = image.rows.iter().filter(|row| {
                    usize::from(row.from) == label
                        && word & row.care == row.values
                        && row.function_bit == *bit
                });
                assert_eq!(matching.count(), 1, "seed {seed}");
            }
        }
    }
}

#[test]
fn a_rebinding_keeps_a_fitting_state_fitting() {
    let mut rebound = 0;
    each_fitting(|seed, random, image, mut state| {
        let before = state;
        let (number, scheme) = runs::rebinding(random, image.entries.len());
        let answer = entry::rebind(&text_of(&image.frames()), &mut state, number, scheme);
        assert!(machine::fits(image, &state), "seed {seed}");
        if answer == Ok(0) {
            rebound += 1;
            assert_eq!(usize::from(state.serving[number - 1]), scheme, "seed {seed}");
            state.serving[number - 1] = before.serving[number - 1];
        }
        assert_eq!(state, before, "seed {seed}: no more than the one binding is changed");
    });
    assert!(rebound > 500, "too few rebindings succeeded: {rebound}");
}

#[test]
fn lists_of_runs_and_rebindings_tick_as_the_walk_does() {
    let (mut full, mut drops, mut swapped) = ([0; 2], 0, 0);
    let (mut paid, mut paid_at_17) = (0, 0);
    for seed in 0..CASES {
        let mut random = Random::new(seed);
        let (records, image) = images::translated(&mut random);
        let text = text_of(&image.frames());
        let size = random.pick(&[1, 2, 3, 5, 32]);
        let list = runs::list(&mut random, image.entries.len());
        let wanted = expected(&chart_of(&records).unwrap(), size, &list);
        let mut state = fresh_state(size).unwrap();
        for (step, wanted) in list.iter().zip(&wanted) {
            let run = match step {
                Step::Run(run) => run,
                Step::Rebind(number, scheme) => {
                    let answer = entry::rebind(&text, &mut state, *number, *scheme);
                    assert_eq!(&Outcome::of_rebinding(answer), wanted, "seed {seed}");
                    continue;
                }
            };
            let (mut masks, mut codes) = (run.masks.clone(), run.codes.clone());
            let (lent, words) = (&mut state, &run.words);
            let (answer, price) = match &run.prices {
                Some(prices) => {
                    let priced = entry::priced_run(&text, lent, prices, words, &mut masks, &mut codes);
                    (priced.answer, Some(priced.price))
                }
                None => (entry::run(&text, lent, words, &mut masks, &mut codes), None),
            };
            assert_eq!(&Outcome { answer, masks, codes, price }, wanted, "seed {seed}");
            paid += usize::from(price.is_some_and(|price| price > 0));
            paid_at_17 += usize::from(answer.number() == 17 && price.is_some_and(|price| price > 0));
            full[usize::from(image.handler != 0)] += usize::from(answer.number() == 17);
            let finished = &wanted.codes[..answer.unwrap_or_else(Refusal::ticks)];
            drops += finished.iter().filter(|code| **code == 0x60).count();
            swapped += usize::from((0..32).any(|at| state.numbers[at] != state.servers[at]));
        }
    }
    assert!(full[0] > 100, "too few runs met a full stack without a handler: {full:?}");
    assert!(full[1] > 100, "too few runs met a full stack with the handler at the bottom: {full:?}");
    assert!(drops > 500, "too few ticks dropped the stack: {drops}");
    assert!(swapped > 150, "too few runs ended in a scheme that serves another's number: {swapped}");
    assert!(paid > 500 && paid_at_17 > 30, "too few runs had a price: {paid}, with 17 {paid_at_17}");
}

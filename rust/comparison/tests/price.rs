//! Priced runs: what a mask costs, how the sum is rounded, that all else is the run's, that the price is that of the masks written and of
//! the walk's ticks, and when it is refused.

use comparison::generate::{images, prices, runs, states, Random};
use comparison::samples;
use reference::check::chart_of;
use reference::entry::{self, translated};
use reference::frames::text_of;
use reference::image::{image_of, Image, Label, Row, PLAIN};
use reference::price::{cents, mask_price, price, PRICED_WORDS};
use reference::walk::walk;
use reference::{fresh_state, PricedReport, Prices, Refusal, State, Told};

/// Price 1 for bit 0, 2 for bit 1 and so on.
fn rising() -> Prices {
    std::array::from_fn(|bit| bit as u16 + 1)
}

#[test]
fn a_mask_costs_the_prices_of_its_bits() {
    for bit in 0..32 {
        assert_eq!(mask_price(&rising(), 1 << bit), bit + 1);
    }
    assert_eq!(mask_price(&rising(), 0), 0);
    assert_eq!(mask_price(&rising(), 0x8000_0101), 1 + 9 + 32);
    assert_eq!(mask_price(&[u16::MAX; 32], u32::MAX), 32 * 65_535);
}

#[test]
fn halves_go_upward_once_for_the_run() {
    for (sum, wanted) in [(0, 0), (49, 0), (50, 1), (99, 1), (100, 1), (149, 1), (150, 2), (5_050, 51)] {
        assert_eq!(cents(sum), wanted, "{sum}");
    }
    let mut list = [0; 32];
    list[0] = 50;
    // each tick by itself would be a cent
    assert_eq!(price(&list, &[1; 4]), 2);
    assert_eq!(price(&list, &[1; 5]), 3);
    list[0] = 49;
    assert_eq!(price(&list, &[1; 4]), 2);
}

/// One label with all micro operations on that leads to itself, and a state that stands there.
fn all_on() -> (Vec<u8>, State) {
    let busy = Label { kind: PLAIN, called: 0, owner: 1, result: 0, mask: u32::MAX };
    let row = Row { from: 2, care: 0, values: 0, function_bit: 2, next: 2 };
    let labels = vec![Label::ZERO, Label::ONE, busy];
    let image = Image { handler: 0, entries: vec![2], labels, rows: vec![row] };
    assert_eq!(image_of(&image.frames()).as_ref(), Ok(&image));
    let state = image.shape().state(32, &[2]);
    (text_of(&image.frames()), state)
}

#[test]
fn the_largest_price_has_room() {
    let (image, state) = all_on();
    let words = vec![0; PRICED_WORDS];
    let (mut masks, mut codes) = (vec![0; PRICED_WORDS], vec![9; PRICED_WORDS]);
    let mut after = state;
    let priced = entry::priced_run(&image, &mut after, &[u16::MAX; 32], &words, &mut masks, &mut codes);
    assert_eq!(priced, PricedReport { answer: Ok(PRICED_WORDS), price: 1_374_368_563 });
    assert_eq!(after, state);
    assert!(masks.iter().all(|mask| *mask == u32::MAX) && codes.iter().all(|code| *code == 0));
}

/// 15 before 27, 27 before 16, and 27 only past 65,536 words; what is lent stays as it was, and the price is 0.
#[test]
fn refusals_are_tried_in_their_order() {
    let (image, state) = all_on();
    let unfit = State { depth: 2, ..state };
    let words = vec![0; PRICED_WORDS + 1];
    let answer = |image: &[u8], state: &State, words: &[u16], room: usize| {
        let (mut after, mut masks, mut codes) = (*state, vec![7; room], vec![7; room]);
        let priced = entry::priced_run(image, &mut after, &[u16::MAX; 32], words, &mut masks, &mut codes);
        assert_eq!((priced.price, after), (0, *state));
        assert!(masks.iter().all(|mask| *mask == 7) && codes.iter().all(|code| *code == 7));
        priced.answer
    };
    for room in [0, PRICED_WORDS, PRICED_WORDS + 1] {
        assert_eq!(answer(&image[..5], &state, &words, room), Err(Refusal::BadLength));
        assert_eq!(answer(&image, &unfit, &words, room), Err(Refusal::Unfit));
        assert_eq!(answer(&image, &state, &words, room), Err(Refusal::ManyWords));
    }
    assert_eq!(answer(&image, &unfit, &words[1..], 0), Err(Refusal::Unfit));
    for room in [0, PRICED_WORDS - 1] {
        assert_eq!(answer(&image, &state, &words[1..], room), Err(Refusal::NoRoom));
    }
}

/// Chart P on two places: the third tick's price is in the sum, and the call that gets 17 is not.
#[test]
fn a_run_that_is_stopped_is_priced_as_far_as_it_came() {
    let image = translated(&text_of(&samples::chart_p())).expect("a valid chart");
    let words = [0, 0, 1, 0, 0, 0, 0, 0];
    let priced = |places: usize, list: &Prices| {
        let (mut masks, mut codes) = ([0; 8], [0; 8]);
        let mut state = fresh_state(places).expect("a size");
        let priced = entry::priced_run(&image, &mut state, list, &words, &mut masks, &mut codes);
        (priced.answer, priced.price)
    };
    let mut list = [0; 32];
    (list[0], list[1]) = (150, 1_000);
    assert_eq!(priced(3, &list), (Ok(8), 12));
    assert_eq!(priced(2, &list), (Err(Refusal::Full { ticks: 3 }), 2));
    assert_eq!(priced(1, &list), (Err(Refusal::Full { ticks: 1 }), 0));
}

#[test]
fn all_else_is_the_runs_and_the_price_is_that_of_the_masks_written() {
    let mut answers = [0; 28];
    for seed in 0..3_000 {
        let random = &mut Random::new(seed);
        let image = images::accepted(random);
        let state = states::state(random, image.shape());
        let (text, run, list) = (text_of(&image.frames()), runs::run(random, 30), prices::list(random));
        let (mut masks, mut codes) = (run.masks.clone(), run.codes.clone());
        let (mut priced_masks, mut priced_codes) = (run.masks.clone(), run.codes.clone());
        let (mut after, mut priced_after) = (state, state);
        let answer = entry::run(&text, &mut after, &run.words, &mut masks, &mut codes);
        let (lent, words) = (&mut priced_after, &run.words);
        let priced = entry::priced_run(&text, lent, &list, words, &mut priced_masks, &mut priced_codes);
        assert_eq!((priced.answer, priced_after), (answer, after), "seed {seed}");
        assert_eq!((&priced_masks, &priced_codes), (&masks, &codes), "seed {seed}");
        assert_eq!(
            priced.price,
            price(&list, &masks[..answer.unwrap_or_else(Refusal::ticks)]),
            "seed {seed}"
        );
        answers[usize::from(answer.number())] += 1;
    }
    assert!([0, 15, 16, 17, 18].iter().all(|number| answers[*number] > 50), "{answers:?}");
}

#[test]
fn from_a_fresh_state_the_price_is_that_of_the_walks_same_ticks() {
    let mut stopped = 0;
    for seed in 0..2_000 {
        let random = &mut Random::new(seed);
        let (records, image) = images::translated(random);
        let size = random.pick(&[1, 2, 3, 5, 32]);
        let (words, list) = (runs::words(random, 60), prices::list(random));
        let mut state = fresh_state(size).expect("a size");
        let text = text_of(&image.frames());
        let priced = entry::priced_run(&text, &mut state, &list, &words, &mut [0; 60], &mut [0; 60]);
        let ticks = walk(&chart_of(&records).expect("a valid chart"), size, &words);
        let finished = priced.answer.unwrap_or_else(Refusal::ticks);
        let walked: Vec<u32> = ticks.iter().take(finished).map(|tick| tick.mask).collect();
        assert_eq!(priced.price, price(&list, &walked), "seed {seed}");
        stopped += usize::from(priced.answer.number() == 17);
    }
    assert!(stopped > 100, "{stopped}");
}

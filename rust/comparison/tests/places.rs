//! With as many places as a chart's calls need no words from a fresh state meet 17 or a drop.

use std::collections::BTreeMap;

use comparison::generate::{chains, runs, Random};
use reference::check::chart_of;
use reference::frames::text_of;
use reference::places::longest_chain;
use reference::{entry, fresh_state, Answer, Refusal, Told};

const WORDS: usize = 300;

/// The answer of a run from a fresh state of this size, and the codes of its ticks.
fn ran(image: &[u8], size: usize, words: &[u16]) -> (Answer, Vec<u8>) {
    let (mut masks, mut codes) = (vec![0; words.len()], vec![0; words.len()]);
    let mut state = fresh_state(size).expect("1 to 32 places");
    let answer = entry::run(image, &mut state, words, &mut masks, &mut codes);
    codes.truncate(answer.unwrap_or_else(Refusal::ticks));
    (answer, codes)
}

/// One place fewer is often too few: then a run ends in 17 or drops.
#[test]
fn with_so_many_places_no_call_finds_the_stack_full() {
    let (mut kept, mut too_few) = (0, 0);
    for seed in 0..4_000 {
        let random = &mut Random::new(seed);
        let text = text_of(&chains::chart(random));
        let Ok(places) = entry::places(&text) else { continue };
        let image = entry::translated(&text).expect("a chart that was counted");
        let words = runs::words(random, WORDS);
        let size = random.within(places, 32);
        for size in [places, size] {
            let (answer, codes) = ran(&image, size, &words);
            assert_eq!(answer, Ok(WORDS), "seed {seed}, {size} places");
            assert!(!codes.contains(&0x60), "seed {seed}, {size} places");
        }
        kept += 1;
        if places > 1 {
            let (answer, codes) = ran(&image, places - 1, &words);
            too_few += usize::from(answer.number() == 17 || codes.contains(&0x60));
        }
    }
    println!("{kept} charts were run, {too_few} of them with too few places");
    assert!(kept > 1_000 && too_few > 200, "{kept} {too_few}");
}

/// Every count from 1 to 16 is met, and circles within and out of reach, often enough to tell.
#[test]
fn charts_need_every_number_of_places() {
    let mut counted = BTreeMap::new();
    let mut out_of_reach = 0;
    for seed in 0..8_000 {
        let records = chains::chart(&mut Random::new(seed));
        let answer = entry::places(&text_of(&records));
        *counted.entry((answer.number(), answer.unwrap_or(0))).or_insert(0) += 1;
        let chart = chart_of(&records).expect("a valid chart");
        let circle = (1..=chart.schemes()).any(|scheme| longest_chain(&chart, scheme).is_err());
        out_of_reach += usize::from(answer.number() == 0 && circle);
    }
    println!("{counted:?}, {out_of_reach} with a circle out of reach");
    let met = |answer| counted.get(&answer).copied().unwrap_or(0);
    assert!((1..=16).all(|places| met((0, places)) > 5), "{counted:?}");
    assert!(met((10, 0)) > 20 && met((20, 0)) > 1_000 && out_of_reach > 100, "{counted:?} {out_of_reach}");
}

//! Live runs and ticks of the reference: on prepared tables they are runs and ticks, on any bytes they keep the rules, and
//! the generator reaches each of the rules that only a table at fault can show.

use std::collections::BTreeMap;

use comparison::compare::live_alike;
use comparison::generate::spindles::{self, Lent};
use comparison::generate::{images, runs, states, tables, Random};
use comparison::samples;
use fast::{Fast, Kept};
use interface::SPINDLES;
use reference::frames::text_of;
use reference::image::{Image, Label, HOME, PLAIN, RETURN};
use reference::live::Held;
use reference::prepare::table_of;
use reference::{entry, fresh_state, Answer, Library, Reference, Refusal, State};

/// How many random images are tried.
const IMAGES: u64 = 2_000;
/// How many states are tried on each.
const STATES: usize = 20;

fn image_p() -> Image {
    let text = entry::translated(&text_of(&samples::chart_p())).expect("a valid chart");
    entry::image_from_text(&text).expect("its image")
}

#[test]
fn the_table_of_chart_p_is_as_written_out() {
    let frames = [
        [0x0F, 2, 4, 0, 4, 0, 0, 0, 0, 0],
        [0x10, 1, 2, 0, 0, 0, 0, 0, 0, 0],
        [0x10, 2, 3, 0, 0, 0, 0, 0, 0, 0],
        [8, 0, 4, 0, 1, 0, 0, 0, 0, 0],
        [8, 0, 3, 0, 0, 0, 0, 0, 0, 0],
        [9, 0, 1, 2, 1, 0, 0, 0, 0, 1],
        [11, 0, 0, 0, 2, 0, 0, 0, 0, 0],
        [12, 0, 1, 2, 2, 0, 0, 0, 0, 2],
        [0x12, 2, 0, 0, 0, 0, 2, 0, 0, 0],
        [0x12, 3, 0, 1, 0, 0, 2, 1, 0, 0],
        [0x12, 3, 0, 1, 0, 1, 2, 4, 0, 0],
        [0x12, 4, 0, 0, 0, 0, 2, 1, 0, 0],
    ];
    assert_eq!(table_of(&image_p()), frames);
}

#[test]
fn a_label_without_rows_is_noted_as_the_label_before_it() {
    let mut image = image_p();
    image.rows.retain(|row| row.from == 3);
    let notes: Vec<u8> = table_of(&image)[3..8].iter().map(|frame| frame[0]).collect();
    assert_eq!(notes, [8, 8, 8, 10, 10]);
}

#[test]
fn live_runs_and_ticks_are_runs_and_ticks() {
    for library in [&Reference as &dyn Library, &Fast] {
        let summary = live_alike(library, IMAGES, STATES);
        let tried = [
            ("live_run", &[0, 15, 16, 17, 18][..]),
            ("live_tick", &[0, 15, 17, 18]),
            ("live_spin", &[0, 15, 17, 18, 25, 26]),
        ];
        for (call, numbers) in tried {
            for number in 0..=26 {
                let met = summary.count(call, number) > 0;
                assert_eq!(met, numbers.contains(&number), "{call} {number}\n{summary}");
            }
        }
    }
}

#[test]
fn a_kept_machine_ticks_as_the_reference_does() {
    for seed in 0..IMAGES {
        let random = &mut Random::new(seed);
        let image = images::accepted(random);
        let text = text_of(&image.frames());
        let Ok(kept) = Kept::new(&text) else { continue };
        for _ in 0..STATES {
            let state = states::state(random, image.shape());
            let word = random.number() as u16;
            let (mut wanted, mut given) = (state, state);
            let ticked = Reference.tick(&text, &mut wanted, word);
            assert_eq!((kept.tick(&mut given, word), given), (ticked, wanted), "seed {seed}");
            let lent = spindles::lent(random, &state);
            if lent.spindle < SPINDLES {
                let (mut wanted, mut given) = (lent.clone(), lent.clone());
                let Lent { states, taken, spindle } = &mut wanted;
                let ticked = Reference.spin(states, taken, *spindle, &text, word);
                let spun = kept.spin(&mut given.states, &mut given.taken, given.spindle, word);
                assert_eq!((spun, given), (ticked, wanted), "seed {seed}");
            }
        }
    }
}

/// What only a table at fault can show at a tick, and whether this one does.
fn oddities(held: &Held, state: &State, word: u16) -> [(&'static str, bool); 23] {
    let top = usize::from(state.depth) - 1;
    let number = state.places[top];
    let here = held.labels.get(usize::from(number));
    let is = |test: &dyn Fn(&Label) -> bool| here.is_some_and(test);
    let called_by = state.numbers[top];
    let served = |label: &Label| state.serving[usize::from(label.called).max(1) - 1];
    let ticked = held.tick(state, word);
    let made = ticked.is_ok();
    let drops = ticked.is_ok_and(|advanced| advanced.code == 0x60);
    let entry = |scheme: u8| held.entry(scheme);
    let taken = || held.taken(number, &state.results, word);
    let bit_ignored = |label: &Label| label.kind == PLAIN && taken().is_some_and(|row| row.function_bit != 2);
    let rows = held.row_label(state).map_or(vec![], |label| held.matching(label, &state.results, word));
    let most = rows.iter().map(|row| row.care.count_ones()).max();
    let mut best = rows.clone();
    best.retain(|row| Some(row.care.count_ones()) == most);
    [
        ("a label above the last", here.is_none()),
        (
            "a return at the bottom, with no handler",
            top == 0 && held.handler == 0 && is(&|l| l.kind == RETURN),
        ),
        (
            "a return at the bottom, with a handler",
            top == 0 && held.handler != 0 && is(&|l| l.kind == RETURN),
        ),
        ("a drop at a call of scheme 0", drops && is(&|l| l.called == 0)),
        ("a drop by number 0, which writes", drops && called_by == 0 && is(&|l| l.result != 0)),
        ("a drop to an entry that is not the handler's", drops && !held.handles(entry(held.handler))),
        ("a drop to an entry above the last", drops && usize::from(entry(held.handler)) >= held.labels.len()),
        ("home above the bottom", top > 0 && is(&|l| l.kind == HOME)),
        ("a call of scheme 0", is(&|l| l.calls() && l.called == 0)),
        ("a call of scheme 1", is(&|l| l.calls() && l.called == 1)),
        ("a full stack at a call of scheme 0", !made && is(&|l| l.calls() && l.called == 0)),
        ("number 0 writes", made && called_by == 0 && is(&|l| l.result != 0)),
        (
            "another scheme than the owner's number writes",
            made && is(&|l| l.result != 0 && l.owner != called_by),
        ),
        ("a call served by scheme 0", made && is(&|l| l.calls() && served(l) == 0)),
        ("a call served by scheme 1", made && is(&|l| l.calls() && served(l) == 1)),
        (
            "a call served by a scheme above the last",
            made && is(&|l| l.calls() && usize::from(served(l)) > held.entries.len()),
        ),
        ("a result above 2", made && is(&|l| l.result > 2)),
        ("a function bit in the row of a plain tick", is(&bit_ignored)),
        (
            "an entry above the last",
            held.entries.iter().any(|entry| usize::from(*entry) >= held.labels.len()),
        ),
        ("a state that does not fit", !held.fits(state)),
        ("two rows or more that match", rows.len() > 1),
        ("a special row before a general one", best.len() == 1 && best.last() != rows.last()),
        ("a tie of rows to different labels", best.iter().any(|row| row.next != best[0].next)),
    ]
}

#[test]
fn ticks_have_every_oddity() {
    let mut found = BTreeMap::new();
    for seed in 0..30_000 {
        let random = &mut Random::new(seed);
        let (bytes, mut state) = tables::table_and_state(random);
        let Ok(held) = Held::of(&bytes) else { continue };
        if !held.fits(&state) {
            continue;
        }
        for word in runs::words(random, 12) {
            for (oddity, met) in oddities(&held, &state, word) {
                *found.entry(oddity).or_insert(0) += usize::from(met);
            }
            let Ok(advanced) = held.tick(&state, word) else { break };
            state = advanced.state;
        }
    }
    let rare: Vec<_> = found.iter().filter(|(_, count)| **count < 10).collect();
    println!("{found:?}");
    assert!(rare.is_empty(), "too few ticks have {rare:?}");
}

/// The table of chart P with some bytes changed: frame, byte and value.
fn changed(changes: &[(usize, usize, u8)]) -> Vec<u8> {
    let mut frames = table_of(&image_p());
    for (frame, k, byte) in changes {
        frames[*frame][*k] = *byte;
    }
    frames.concat()
}

/// What a live run on these bytes answers from a fresh state of three places, and its codes.
fn ran(table: &[u8], words: &[u16]) -> (Answer, Vec<u8>) {
    let (mut masks, mut codes) = (vec![0; words.len()], vec![0; words.len()]);
    let mut state = fresh_state(3).expect("a good size");
    let answer = entry::live_run(table, &mut state, words, &mut masks, &mut codes);
    codes.truncate(answer.unwrap_or_else(Refusal::ticks));
    (answer, codes)
}

#[test]
fn the_header_alone_decides_on_11() {
    let refused = Err(Refusal::BadHeader);
    assert_eq!(ran(&[], &[0]).0, refused);
    let table = changed(&[]);
    assert_eq!(ran(&table[..119], &[0]).0, refused);
    for (k, byte) in [(1, 0), (1, 17), (1, 3), (2, 0), (2, 5), (3, 4), (4, 5), (5, 1), (5, 3), (5, 255)] {
        assert_eq!(ran(&changed(&[(0, k, byte)]), &[0]).0, refused, "byte {k} is {byte}");
    }
    for (k, byte) in [(0, 77), (5, 2), (6, 77), (7, 77), (8, 77), (9, 77)] {
        assert_eq!(ran(&changed(&[(0, k, byte)]), &[0]), (Ok(1), vec![0x04]));
    }
    assert_eq!(ran(&[table, vec![1; 15]].concat(), &[0]).0, Ok(1));
}

#[test]
fn ticks_on_faulty_tables_keep_the_rules() {
    // a return at the bottom leads to label 0, with a handler and without
    for handler in [0, 2] {
        let to_return = [(0, 5, handler), (5, 2, 0), (8, 7, 1)];
        assert_eq!(ran(&changed(&to_return), &[0; 4]), (Ok(4), vec![0x04, 0x00, 0x03, 0x04]));
    }
    // a row to a label above the last
    let to_nothing = [(5, 2, 0), (8, 7, 5)];
    assert_eq!(ran(&changed(&to_nothing), &[0, 0, 0]), (Err(Refusal::NoRow { ticks: 2 }), vec![0x04, 0x00]));
    // home above a call: the entry of scheme 1 takes its place
    let home_above = [(2, 2, 0)];
    assert_eq!(ran(&changed(&home_above), &[0; 4]), (Ok(4), vec![0x04, 0x12, 0x04, 0x12]));
    // a call of a scheme above the last is one of scheme 0, which takes the entry of scheme 1
    let call_above = [(5, 3, 3)];
    assert_eq!(
        ran(&changed(&call_above), &[0; 4]),
        (Err(Refusal::Full { ticks: 3 }), vec![0x04, 0x10, 0x10])
    );
    // where that fills the stack the handler follows, by an entry that may be scheme 1's, whose call drops again
    let handled = [(0, 5, 2), (2, 2, 2), (5, 3, 3)];
    let codes = vec![0x04, 0x10, 0x10, 0x60, 0x10, 0x10, 0x60];
    assert_eq!(ran(&changed(&handled), &[0; 7]), (Ok(7), codes));
}

//! The generator reaches what it is meant to reach.

use std::collections::{BTreeMap, BTreeSet};

use comparison::compare::{compare, Counted, Handled, PricedRuns};
use comparison::generate::{charts, images, little, runs, states, Random};
use reference::chart::{Chart, Kind};
use reference::check::chart_of;
use reference::image::{image_of, Image, Row, FUNCTION_CALL, RETURN, ROWS};
use reference::little::texts;
use reference::machine::{self, handles};
use reference::translator;
use reference::{Reference, Refusal, State};

/// Which refusals each call may give; 0 is success.
const TRIED: [(&str, &[u8]); 28] = [
    ("read_chart", &[0, 1, 2, 3, 4, 5, 6, 7, 8, 9, 16, 19]),
    ("write_chart", &[0, 1, 4, 5, 6, 7, 8, 9, 16, 19]),
    ("translate", &[0, 1, 2, 3, 4, 5, 6, 7, 8, 9, 10, 16, 19]),
    ("places", &[0, 1, 2, 3, 4, 5, 6, 7, 8, 9, 10, 19, 20]),
    ("check_image", &[0, 1, 2, 3, 11, 12, 13]),
    ("fresh", &[0, 14]),
    ("run", &[0, 1, 2, 3, 11, 12, 13, 15, 16, 17, 18]),
    ("dry_run", &[0, 1, 2, 3, 4, 5, 6, 7, 8, 9, 10, 14, 16, 17, 19]),
    ("priced_run", &[0, 1, 2, 3, 11, 12, 13, 15, 16, 17, 18, 27]),
    ("tick", &[0, 1, 2, 3, 11, 12, 13, 15, 17, 18]),
    ("runs", &[0, 16, 17, 22, 27]),
    ("prepare", &[0, 1, 2, 3, 11, 12, 13, 16]),
    ("check_table", &[0, 11, 12, 13]),
    ("sum", &[0]),
    ("cause", &[0, 1, 2, 3, 11, 12, 13, 15, 18, 21]),
    ("list_rows", &[0, 1, 2, 3, 11, 12, 13, 16]),
    ("minimise", &[0, 1, 2, 3, 11, 12, 13, 16, 23]),
    ("little_chart", &[0, 16, 24]),
    ("count_fillings", &[0, 1, 2, 3, 11, 12, 13, 14, 28]),
    ("live_run", &[0, 11, 15, 16, 17, 18]),
    ("live_tick", &[0, 11, 15, 17, 18]),
    ("live_runs", &[0, 16, 17, 22, 27]),
    ("mixture", &[0, 11, 15, 16, 17, 18, 22]),
    ("rebind", &[0, 1, 2, 3, 11, 12, 13, 15, 22]),
    ("live_rebind", &[0, 11, 15, 22]),
    ("spin", &[0, 1, 2, 3, 11, 12, 13, 15, 17, 18, 25, 26]),
    ("live_spin", &[0, 11, 15, 17, 18, 25, 26]),
    ("spins", &[0, 17, 22, 25, 26]),
];

/// The calls that tick.
const TICKS: [&str; 11] = [
    "run",
    "priced_run",
    "tick",
    "runs",
    "live_run",
    "live_tick",
    "live_runs",
    "mixture",
    "spin",
    "live_spin",
    "spins",
];

#[test]
fn every_answer_is_met_and_no_other() {
    let summary = compare(&Reference, 77, 8_000).unwrap_or_else(|difference| panic!("{difference}"));
    for (call, numbers) in TRIED {
        for number in 0..=28 {
            let met = summary.count(call, number) > 0;
            assert_eq!(met, numbers.contains(&number), "{call} {number}\n{summary}");
        }
    }
}

/// Each kind of run and tick drops the stack and goes home from the handler's End often enough to tell.
#[test]
fn every_call_that_ticks_meets_the_handler() {
    let summary = compare(&Reference, 78, 16_000).unwrap_or_else(|difference| panic!("{difference}"));
    for call in TICKS.into_iter().chain(["dry_run"]) {
        let Handled { drops, returns } = summary.handled(call);
        assert!(drops > 20 && returns > 20, "{call}\n{summary}");
    }
}

/// Each kind of call on spindles finds all places taken, and drops a stack then.
#[test]
fn every_call_on_spindles_meets_a_store_without_places() {
    let summary = compare(&Reference, 81, 40_000).unwrap_or_else(|difference| panic!("{difference}"));
    for (call, drops) in [("spin", 20), ("live_spin", 20), ("spins", 5)] {
        let met = (summary.count(call, 26), summary.full_drops(call));
        assert!(met.0 > 100 && met.1 >= drops, "{call}\n{summary}");
    }
}

/// Each kind of run and tick calls numbers that other schemes serve often enough to tell.
#[test]
fn every_call_that_ticks_meets_swapped_schemes() {
    let summary = compare(&Reference, 80, 16_000).unwrap_or_else(|difference| panic!("{difference}"));
    for call in TICKS {
        assert!(summary.swapped(call) > 40, "{call}\n{summary}");
    }
}

/// Priced runs have a price when they are stopped, sums of a half and right below one, as many ticks as there may be, and sums that
/// 32 bits do not hold, each often enough to tell.
#[test]
fn priced_runs_meet_halves_and_long_runs() {
    let summary = compare(&Reference, 81, 16_000).unwrap_or_else(|difference| panic!("{difference}"));
    let PricedRuns { stopped, halves, below_halves, longest, large } = summary.priced;
    assert!(stopped > 40 && halves > 40 && below_halves > 40 && longest > 3 && large > 2, "{summary}");
}

/// Counts of lists of words have some that end beside some that are stopped by 17, by 18 and by either, and some have as many lists as
/// there may be, each often enough to tell.
#[test]
fn counts_of_lists_meet_every_end() {
    let summary = compare(&Reference, 82, 32_000).unwrap_or_else(|difference| panic!("{difference}"));
    let Counted { full, unmatched, both, most } = summary.fillings;
    assert!(full > 150 && unmatched > 80 && both > 10 && most > 10, "{summary}");
}

/// Each kind of call that takes a text is given enough of them with small letters that are read.
#[test]
fn every_call_that_reads_meets_small_letters() {
    let summary = compare(&Reference, 79, 8_000).unwrap_or_else(|difference| panic!("{difference}"));
    let calls = [
        "read_chart",
        "translate",
        "dry_run",
        "places",
        "check_image",
        "prepare",
        "run",
        "priced_run",
        "tick",
        "cause",
        "list_rows",
        "minimise",
        "count_fillings",
        "runs",
        "live_runs",
        "mixture",
        "rebind",
        "spin",
    ];
    for call in calls {
        assert!(summary.small(call) > 100, "{call}\n{summary}");
    }
}

/// Every little chart is asked for, and often enough what there is not, such as numbers that are small where they are cut.
#[test]
fn little_charts_are_asked_for_in_every_way() {
    let (mut met, mut found) = (BTreeSet::new(), BTreeMap::new());
    for seed in 0..20_000 {
        let (frames, number) = little::asked(&mut Random::new(seed));
        let count = texts(frames).len();
        let there = |frames: usize, number: usize| number < texts(frames).len();
        let cut = |number: usize| [number & 0xFF, number & 0xFFFF, number & 0xFFFF_FFFF];
        if there(frames, number) {
            met.insert((frames, number));
        }
        for (way, asked) in [
            ("1 frame", frames == 1),
            ("5 frames", frames == 5),
            ("the last number", number + 1 == count),
            ("one past the last number", number == count && count > 0),
            (
                "frames that are cut",
                count == 0 && cut(frames).into_iter().any(|frames| there(frames, number)),
            ),
            (
                "a number that is cut",
                !there(frames, number) && cut(number).into_iter().any(|cut| there(frames, cut)),
            ),
        ] {
            *found.entry(way).or_insert(0) += usize::from(asked);
        }
    }
    println!("{found:?}");
    assert_eq!(met.len(), 2 + 18 + 648);
    let rare: Vec<_> = found.iter().filter(|(_, count)| **count < 100).collect();
    assert!(rare.is_empty(), "too few are asked for by {rare:?}");
}

/// What the rows that match at a tick of a fitting state have to do with each other, whether those of this tick have it, and at how
/// many ticks it is to be met.
fn overlaps(image: &Image, state: &State, word: u16) -> [(&'static str, bool, usize); 6] {
    let from = machine::row_label(image, state).unwrap_or(0);
    let rows: Vec<&Row> = machine::matching(image, &state.results, from, word).collect();
    let ones = |row: &&Row| row.care.count_ones();
    let most = rows.iter().map(ones).max();
    let best: Vec<&Row> = rows.iter().copied().filter(|row| Some(ones(row)) == most).collect();
    let (alone, tied) = (best.len() == 1 && rows.len() > 1, best.len() > 1);
    [
        ("two rows or more that match", rows.len() > 1, 4_000),
        ("a special row before a general one", alone && best[0] != rows[rows.len() - 1], 500),
        ("a special row behind a general one", alone && best[0] != rows[0], 500),
        ("a tie", tied, 3_000),
        ("a tie of rows to different labels", tied && best.iter().any(|row| row.next != best[0].next), 2_000),
        ("a tie with a function bit", tied && best.iter().any(|row| row.function_bit < 2), 100),
    ]
}

/// What the handler and swapped schemes bring into a tick of a fitting state, and whether this tick has it.
fn events(image: &Image, state: &State, word: u16) -> [(&'static str, bool); 20] {
    let top = usize::from(state.depth) - 1;
    let here = image.labels[usize::from(state.places[top])];
    let handler = image.handler;
    let bit = |scheme: u8| state.results[usize::from(scheme) - 1];
    let at_bottom = handles(image, state.places[0]);
    let open = state.servers[1..=top].contains(&handler);
    let swapped = state.numbers[top] != state.servers[top];
    let beneath = image.labels[usize::from(state.places[top.saturating_sub(1)])];
    let calls = here.calls() && state.depth < state.size;
    let server = if here.calls() { state.serving[usize::from(here.called) - 1] } else { 0 };
    let bits_differ = swapped && bit(state.numbers[top]) != bit(state.servers[top]);
    let ticked = machine::tick(image, state, word);
    let drops = ticked.as_ref().is_ok_and(|advanced| advanced.code == 0x60);
    let full = ticked.is_err_and(|refusal| refusal == Refusal::Full { ticks: 0 });
    [
        ("a drop of one place", drops && top == 0),
        ("a drop of more than three places", drops && top > 2),
        ("a drop by a function", drops && here.kind == FUNCTION_CALL),
        (
            "a drop by the handler's number, which writes 1",
            drops && state.numbers[top] == handler && here.result == 2,
        ),
        ("a drop by a call of the handler's scheme", drops && here.called == handler),
        ("a drop with the handler's bit at 1", drops && bit(handler)),
        ("a drop that leaves a 1 of the scheme called", drops && here.called != handler && bit(here.called)),
        ("a drop with the handler's scheme called and open", drops && open),
        ("a drop to a handler that is Begin to End", drops && image.entries[usize::from(handler) - 1] == 1),
        ("17 with the handler at the bottom, alone", full && at_bottom && top == 0),
        ("17 with the handler at the bottom, under others", full && at_bottom && top > 0),
        ("17 without a handler", full && handler == 0),
        ("a call of the handler's scheme", !full && !drops && here.calls() && here.called == handler),
        ("a return at the bottom", here.kind == RETURN && top == 0),
        ("a call that another scheme serves", calls && server != here.called),
        ("a call that the handler's scheme serves", calls && server == handler && here.called != handler),
        ("a call out of a swapped scheme", calls && swapped),
        ("a result under another number than the scheme's", !full && swapped && here.result != 0),
        (
            "a return from a swapped scheme to a function, with other bits of number and scheme",
            here.kind == RETURN && top > 0 && beneath.kind == FUNCTION_CALL && bits_differ,
        ),
        ("a drop by a swapped scheme", drops && swapped),
    ]
}

/// Looks at the ticks of random images from fitting states.
fn each_tick(mut look: impl FnMut(&Image, &State, u16)) {
    for seed in 0..10_000 {
        let random = &mut Random::new(seed);
        let image = images::accepted(random);
        let mut state = states::state(random, image.shape());
        if image_of(&image.frames()).is_err() || !machine::fits(&image, &state) {
            continue;
        }
        for word in runs::words(random, 12) {
            look(&image, &state, word);
            let Ok(advanced) = machine::tick(&image, &state, word) else { break };
            state = advanced.state;
        }
    }
}

#[test]
fn ticks_have_every_event() {
    let mut found = BTreeMap::new();
    each_tick(|image, state, word| {
        for (event, met) in events(image, state, word) {
            *found.entry(event).or_insert(0) += usize::from(met);
        }
    });
    println!("{found:?}");
    let rare: Vec<_> = found.iter().filter(|(_, count)| **count < 40).collect();
    assert!(rare.is_empty(), "too few ticks have {rare:?}");
}

#[test]
fn rows_overlap_at_many_ticks() {
    let mut found = BTreeMap::new();
    each_tick(|image, state, word| {
        for (overlap, met, wanted) in overlaps(image, state, word) {
            *found.entry((overlap, wanted)).or_insert(0) += usize::from(met);
        }
    });
    println!("{found:?}");
    let rare: Vec<_> = found.iter().filter(|((_, wanted), count)| *count < wanted).collect();
    assert!(rare.is_empty(), "too few ticks have {rare:?}");
}

/// Each feature that some generated chart must have, and whether this one has it.
fn features(chart: &Chart) -> [(&'static str, bool); 20] {
    let nodes = &chart.nodes;
    let any = |test: &dyn Fn(usize) -> bool| (0..nodes.len()).any(test);
    let first = nodes[chart.begin(1)].on0;
    let again = |v: usize| nodes[v].kind != Kind::Begin && nodes[v].arcs().contains(&first);
    let called_end = |h: u8| nodes[chart.start(h)].kind == Kind::End;
    let rows = translator::row_count(chart);
    let labels = translator::image_of(chart).map_or(0, |image| image.labels.len());
    [
        ("256 nodes", nodes.len() == 256),
        ("192 to 255 nodes", (192..256).contains(&nodes.len())),
        ("Begin to End alone", nodes.len() == 2),
        ("16 schemes", chart.schemes() == 16),
        ("a scheme that calls itself", any(&|v| calls(chart, v, nodes[v].scheme))),
        ("a 1 written to the bit that the same tick's call clears", any(&|v| clears_its_own(chart, v))),
        ("schemes that call each other", (2..=chart.schemes()).any(|h| mutual(chart, h))),
        ("a function", any(&|v| nodes[v].kind == Kind::Function)),
        ("two arcs to one node", any(&|v| nodes[v].arcs().len() == 2 && nodes[v].on0 == nodes[v].on1)),
        ("a stopping Begin", any(&|v| nodes[v].kind == Kind::Begin && chart.stops(v))),
        ("a called Begin to End", (2..=chart.schemes()).any(called_end)),
        ("a stopping condition met again", nodes[first].kind == Kind::Condition && any(&again)),
        ("a condition number met again", any(&|v| repeats(chart, v))),
        ("1,024 rows", rows == ROWS),
        ("too many rows", rows > ROWS),
        ("256 labels", labels == 256),
        ("no label from 2 up", labels == 2),
        ("no handler among many schemes", chart.schemes() > 1 && chart.handler().is_none()),
        ("a handler that calls", any(&|v| Some(nodes[v].scheme) == chart.handler() && calls_any(chart, v))),
        ("a handler that is called", chart.handler().is_some_and(|h| any(&|v| calls(chart, v, h)))),
    ]
}

fn calls(chart: &Chart, at: usize, scheme: u8) -> bool {
    let node = &chart.nodes[at];
    matches!(node.kind, Kind::Operation | Kind::Function) && node.argument == scheme
}

fn calls_any(chart: &Chart, at: usize) -> bool {
    (2..=chart.schemes()).any(|scheme| calls(chart, at, scheme))
}

/// Whether an operation writes 1 and calls its own scheme.
fn clears_its_own(chart: &Chart, at: usize) -> bool {
    let node = &chart.nodes[at];
    node.kind == Kind::Operation && node.result == 2 && calls(chart, at, node.scheme)
}

/// Whether another scheme calls this one and is called by it.
fn mutual(chart: &Chart, scheme: u8) -> bool {
    let call = |from: u8, to: u8| {
        (0..chart.nodes.len()).any(|v| chart.nodes[v].scheme == from && calls(chart, v, to))
    };
    (2..scheme).any(|other| call(other, scheme) && call(scheme, other))
}

/// Whether an arc joins two conditions of one number.
fn repeats(chart: &Chart, at: usize) -> bool {
    let node = &chart.nodes[at];
    let alike = |to: &usize| {
        let next = &chart.nodes[*to];
        next.kind == Kind::Condition && next.argument == node.argument
    };
    node.kind == Kind::Condition && node.arcs().iter().any(alike)
}

#[test]
fn charts_have_every_feature() {
    let mut found = BTreeMap::new();
    for seed in 0..4_000 {
        let chart = chart_of(&charts::chart(&mut Random::new(seed))).unwrap();
        for (feature, holds) in features(&chart) {
            *found.entry(feature).or_insert(false) |= holds;
        }
    }
    let missing: Vec<&str> = found.iter().filter(|(_, met)| !**met).map(|(feature, _)| *feature).collect();
    assert!(missing.is_empty(), "no chart has {missing:?}");
}

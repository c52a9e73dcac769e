//! Traces of random charts held against the recursive walk of the reference, which knows no label and no stack, and those without swaps
//! against the library's dry run, whose contract says that it is the walk.

use comparison::generate::{charts, runs, Random};
use comparison::samples;
use fairleadow::{Library, Proved, Refusal, IMAGE_TEXT};
use office::plan::Plan;
use office::source::from_bytes;
use office::trace::swaps::Swap;
use office::trace::{trace, Happening, Trace};
use reference::chart::Chart;
use reference::entry::chart_from_text;
use reference::frames::text_of;
use reference::state::OWN;
use reference::walk::{walk_told, Signal, Tick};

const CHARTS: usize = 6_000;

/// The ticks before the first call that finds the stack full, and whether there is one.
fn bounded(ticks: Vec<Tick>, places: usize) -> (Vec<Tick>, bool) {
    let full = ticks.iter().position(|tick| tick.calls() && tick.open == places);
    let count = full.unwrap_or(ticks.len());
    (ticks[..count].to_vec(), full.is_some())
}

/// The words with the binding that the swaps up to each of them make.
fn told(words: &[u16], swaps: &[Swap]) -> Vec<Signal> {
    let mut binding = OWN;
    let mut signal = |(tick, word): (usize, &u16)| {
        for swap in swaps.iter().filter(|swap| swap.tick == tick) {
            binding[swap.number - 1] = swap.scheme as u8;
        }
        Signal { word: *word, binding }
    };
    words.iter().enumerate().map(&mut signal).collect()
}

fn compared(chart: &Chart, traced: &Trace, words: &[u16], swaps: &[Swap]) {
    let (expected, full) = bounded(walk_told(chart, traced.places, &told(words, swaps)), traced.places);
    let ticks = traced.ticks.iter().map(|tick| Tick {
        node: tick.node(),
        mask: tick.mask,
        code: tick.code,
        open: tick.stack.len(),
    });
    assert_eq!(ticks.collect::<Vec<_>>(), expected);
    let refusal = Refusal::Full { ticks: traced.ticks.len() };
    assert_eq!(traced.stopped.as_ref().map(|stopped| stopped.refusal), full.then_some(refusal));
    for (tick, word) in traced.ticks.iter().zip(words) {
        assert_eq!(tick.word, *word);
    }
}

/// A trace without swaps has the masks and the codes of the chart's dry run, and the refusal that ends it.
fn dry_run_is(text: &[u8], traced: &Trace, words: &[u16]) {
    let (mut image, mut masks, mut codes) = ([0; IMAGE_TEXT], vec![0; words.len()], vec![0; words.len()]);
    let answer = Proved.dry_run(text, traced.places, &mut image, words, &mut masks, &mut codes);
    let count = traced.ticks.len();
    assert_eq!(answer, traced.stopped.as_ref().map_or(Ok(count), |stopped| Err(stopped.refusal)));
    assert!(traced.ticks.iter().map(|tick| tick.mask).eq(masks[..count].iter().copied()));
    assert!(traced.ticks.iter().map(|tick| tick.code).eq(codes[..count].iter().copied()));
}

/// Some swaps that are allowed, in the order of their ticks.
fn swaps(random: &mut Random, chart: &Chart, ticks: usize) -> Vec<Swap> {
    let (schemes, handler) = (usize::from(chart.schemes()), chart.handler().unwrap_or(0));
    if ticks == 0 || schemes < 2 {
        return Vec::new();
    }
    let count = random.below(5);
    let any = |_| Swap {
        tick: random.below(ticks),
        number: random.within(2, schemes),
        scheme: random.within(2, schemes),
    };
    let mut swaps: Vec<Swap> =
        (0..count).map(any).filter(|swap| swap.number != usize::from(handler)).collect();
    swaps.sort_by_key(|swap| swap.tick);
    swaps
}

/// The nodes and arcs that a trace took, found again from the walk's nodes: the first arc of a tick leaves the node
/// that goes on, each further one a condition that the one before leads to, and the last leads to the next tick.
fn arcs_join(plan: &Plan, traced: &Trace) {
    for (k, pair) in traced.ticks.windows(2).enumerate() {
        let arcs = &pair[0].arcs;
        let ends: Vec<usize> = arcs.iter().map(|arc| plan.nodes[arc.from].arcs()[arc.side]).collect();
        for (arc, end) in arcs.iter().skip(1).zip(&ends) {
            assert_eq!(arc.from, *end, "tick {k}");
        }
        if let Some(end) = ends.last() {
            assert_eq!(*end, pair[1].node(), "tick {k}");
        }
        for arc in arcs {
            assert!(traced.coverage.arc_taken(*arc) && traced.coverage.node_taken(arc.from));
        }
        assert!(traced.coverage.node_taken(pair[0].node()));
    }
}

#[test]
fn traces_are_the_walk() {
    let mut random = Random::new(14);
    let (mut traced_charts, mut ticks, mut full, mut drops, mut swapped, mut dry_runs) = (0, 0, 0, 0, 0, 0);
    for _ in 0..CHARTS {
        let text = text_of(&charts::chart(&mut random));
        let chart = chart_from_text(&text).expect("an accepted chart");
        let plan = Plan::read(from_bytes(&text)).expect("an accepted chart");
        let count = random.within(0, 150);
        let words = runs::words(&mut random, count);
        let places = random.pick(&[1, 2, 3, 8, 32]);
        let swaps = swaps(&mut random, &chart, words.len());
        let traced = match trace(&plan, places, &words, &swaps) {
            Ok(traced) => traced,
            // charts with too many rows
            Err(problem) => {
                assert_eq!(problem.refusal.map(|refusal| refusal.number()), Some(10));
                continue;
            }
        };
        compared(&chart, &traced, &words, &swaps);
        arcs_join(&plan, &traced);
        if swaps.is_empty() {
            dry_run_is(&text, &traced, &words);
            dry_runs += 1;
        }
        traced_charts += 1;
        let called =
            |tick: &&office::trace::Tick| matches!(tick.happening(), Happening::Call(h) if h != tick.server);
        swapped += traced.ticks.iter().filter(called).count();
        ticks += traced.ticks.len();
        full += usize::from(traced.stopped.is_some());
        drops += traced.ticks.iter().filter(|tick| tick.happening() == Happening::Drop).count();
    }
    println!(
        "{traced_charts} charts, {ticks} ticks, {drops} drops, {swapped} swapped calls, {full} ended by 17"
    );
    assert!(swapped > CHARTS / 20, "{swapped}");
    assert!(dry_runs > CHARTS / 10, "{dry_runs}");
    assert!(
        traced_charts > CHARTS * 9 / 10 && ticks > 40 * CHARTS && full > CHARTS / 20 && drops > CHARTS / 20
    );
}

#[test]
fn the_largest_charts_are_the_walk() {
    let words: Vec<u16> = (0..400).map(|k: u16| k.wrapping_mul(40_503)).collect();
    for records in [samples::most_schemes(), samples::operations(254), samples::most_rows()] {
        let text = text_of(&records);
        let plan = Plan::read(from_bytes(&text)).expect("an accepted chart");
        let traced = trace(&plan, 32, &words, &[]).expect("an accepted chart");
        compared(&chart_from_text(&text).expect("an accepted chart"), &traced, &words, &[]);
        arcs_join(&plan, &traced);
        dry_run_is(&text, &traced, &words);
    }
}

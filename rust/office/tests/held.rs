//! What the examples hold: the block stays clamped as long as the cutter may touch it.

mod shared;

use office::plan::Plan;
use office::source::load;
use office::trace::swaps::given;
use office::trace::words::Words;
use office::trace::{trace, Tick};
use shared::example;

/// The ticks of an example by random words, each with the names of its outputs.
fn ticks(chart: &str, swaps: &str) -> Vec<Vec<String>> {
    let plan = load(example(chart)).and_then(Plan::read).expect("an accepted chart");
    let words = Words::given("random:7", &plan.names).expect("words").take(Some(5_000));
    let swaps =
        if swaps.is_empty() { Vec::new() } else { given(swaps, words.len(), &plan.names).expect("swaps") };
    let trace = trace(&plan, 32, &words, &swaps).expect("an accepted chart");
    assert!(trace.stopped.is_none());
    let outputs = |tick: &Tick| plan.operations(tick.mask);
    trace.ticks.iter().map(outputs).collect()
}

fn has(outputs: &[String], any: &[&str]) -> bool {
    outputs.iter().any(|output| any.contains(&output.as_str()))
}

#[test]
fn branches_clamps_in_each_box_until_the_cutter_is_back() {
    let (mut cuts, mut was_out) = (0, false);
    for outputs in ticks("branches.txt", "") {
        let is_out = has(&outputs, &["spindle", "advance", "retract"]);
        assert!(!is_out || has(&outputs, &["clamp"]), "{outputs:?}");
        // between two such ticks of a cut there is none without the clamp
        cuts += usize::from(is_out && !was_out);
        was_out = is_out;
    }
    assert!(cuts > 100, "{cuts}");
}

/// The clamp is a valve: shut by one output, opened by another, and as it was in all other ticks.
#[test]
fn swapped_opens_the_valve_when_the_cutter_is_back() {
    for swaps in ["", "0:2=3", "3:2=3,400:2=2,1203:2=3,3001:2=2"] {
        let (mut is_shut, mut blocks) = (false, 0);
        let mut may_touch = false;
        for outputs in ticks("swapped.txt", swaps) {
            is_shut = is_shut || has(&outputs, &["clamp"]);
            if has(&outputs, &["unclamp"]) {
                assert!(!may_touch && !has(&outputs, &["cutter_back"]), "{outputs:?}");
                (is_shut, blocks) = (false, blocks + 1);
            }
            assert!(
                is_shut || !has(&outputs, &["spindle", "feed", "cutter_in", "cutter_back"]),
                "{outputs:?}"
            );
            // from the tick in which it is put in until the end of the one in which it is drawn back
            may_touch = has(&outputs, &["cutter_in"]) || may_touch && !has(&outputs, &["cutter_back"]);
        }
        assert!(blocks > 100, "{blocks}");
    }
}

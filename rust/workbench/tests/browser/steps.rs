//! A person's steps lead where they should, slips lose nothing, and a key takes no longer than it may.

use super::{all, one, Told};

/// The most milliseconds from a key to a page that is laid out, on the largest chart, by the quickest of some keys. A machine that is
/// slow, or has much other work, may take as many times longer as it takes for known work beside the keys, rounds of a loop that take so
/// many milliseconds on a quiet one.
const MOST_FOR_A_KEY: f64 = 100.0;
pub const KNOWN_ROUNDS: usize = 16_000_000;
const KNOWN_WORK: f64 = 20.0;

pub fn steps(told: &Told) {
    assert!(one(told, "example").starts_with("accepted: a chart of 10 nodes in 2 schemes;"));
    let steps = [
        "0|n3|n0_0|home|",
        "1|n1|n1_call n4_0|call of bore_test|",
        "2|n5|n5_0 n6_0|plain|probe_down",
        "3|n7|n7_0|plain|",
        "4|n9|n1_0|return|",
    ];
    assert_eq!(all(told, "step"), steps);
    let words = ["once", "spent", "held"].map(|name| one(told, name));
    assert_eq!(words, ["0x0008", "0x0000", "0x0008"].map(|word| format!("the next word: {word}")));
    // the condition that is held makes a bore
    assert_eq!(one(told, "far"), "9|n8|n8_0|plain|");
    assert_eq!(one(told, "back"), "8|n5|n5_0 n6_1|plain|probe_down");
    assert_eq!(one(told, "home"), steps[0]);
    let sought = [
        "1|tick 1: call of bore_test at test (function), no output",
        "2|tick 2: plain at lower, probe_down",
        "3|tick 3: plain at no, no output",
        "3|There is no drop after this tick.",
        "1",
    ];
    assert_eq!(all(told, "sought"), sought);
    assert_eq!(one(told, "sought output"), "change of drill|5");
    assert_eq!(one(told, "node"), "5|n2|n2_0|plain|drill");
    assert_eq!(
        one(told, "why"),
        "it left node hole of drilling (label 3) and went to node end of drilling (label 0)"
    );
    assert_eq!(one(told, "kept"), "both runs have the same 10 ticks");
    assert_eq!(one(told, "cut"), "tick 0 of 0|both runs have the same 1 tick");
    // without a bore this time: at the fourth tick of it another node comes
    assert_eq!(
        one(told, "compared"),
        "both runs have the same 9 ticks\nthe kept run has 10 ticks, this one 9"
    );
    assert_eq!(
        ["undone", "done again", "undone again"].map(|name| one(told, name)),
        ["tick 9 of 9", "tick 8 of 8", "tick 9 of 9"]
    );
    assert!(one(told, "price").ends_with("10 ticks, to pay: 3 cents\n"), "{}", one(told, "price"));
    assert_eq!(one(told, "no price"), "line 1, column 1: no output is named 'dril'; 'drill' is near to it");
    assert_eq!(one(told, "refused"), "tick 1 of 1");
    let ends = "the kept run ends with no refusal, this one with row 1, refused (17)";
    assert!(one(told, "compared refusal").contains(ends), "{}", one(told, "compared refusal"));
    let refusal =
        "1|tick 1, word 0x0000, node test (function) of drilling: the call of bore_test finds the stack full";
    assert!(one(told, "refusal").starts_with(refusal), "{}", one(told, "refusal"));
    assert_eq!(one(told, "no places"), "a stack of 0 places is asked for");
    assert_eq!(one(told, "places"), "tick 1 of 9");
    assert_eq!(one(told, "table"), "end test (function) lower no end hole end test (function) lower yes");
    let lines = "drill is on at 1 of these 10 ticks; probe_down is on at 2 of these 10 ticks";
    assert_eq!(one(told, "lines"), lines);
    assert!(one(told, "no words").contains("'12x' is no word"), "{}", one(told, "no words"));
    assert_eq!(
        ["fed", "many", "not fed"].map(|name| one(told, name)),
        ["tick 12 of 12", "tick 29 of 29", "tick 9 of 9"]
    );
    let ended = one(told, "ended");
    assert!(ended.starts_with("The run has ended: tick 1, word 0x0000"), "{ended}");
    assert_eq!(one(told, "at a tick box"), "left|tick 0 of 1");
    let held = ["0x0008", "0x0000", "0x0008"].map(|word| format!("the next word: {word}"));
    assert_eq!(one(told, "held elsewhere"), held.join("|"));
}

pub fn swaps(told: &Told) {
    assert_eq!(one(told, "served"), "roughing finer");
    assert_eq!(one(told, "offered"), "roughing slow|roughing drawing_back slow");
    assert_eq!(one(told, "swaps"), "tick 1: finer now serves roughing");
    let swapped =
        "home|finer now serves roughing; call of roughing, served by finer|plain|plain|return|plain|plain";
    assert_eq!(one(told, "swapped"), swapped);
    assert_eq!(one(told, "bill lines"), "true");
    assert_eq!(one(told, "parts"), "  1 tick from tick 0: 0 cents|  6 ticks from tick 1: 2 cents|");
    let served = "call of roughing at block of blocks, served by finer|true";
    assert_eq!([one(told, "served line"), one(told, "no served line")], [served, "true"]);
    assert_eq!(one(told, "swap undone"), "|tick 0 of 0");
    assert_eq!(
        one(told, "two swaps"),
        "tick 1: finer now serves roughing;tick 7: roughing now serves its own calls"
    );
    let back = "tick 7: roughing now serves its own calls";
    assert_eq!(one(told, "taken back"), format!("{back}|tick 2 of 6|false|take back: {back}"));
    assert_eq!(
        one(told, "had back"),
        "tick 1: finer now serves roughing;tick 7: roughing now serves its own calls|true"
    );
    assert_eq!(one(told, "all taken back"), "|0|swap");
}

pub fn slips(told: &Told) {
    assert_eq!(one(told, "slip"), "line 14, column 25: no node is named 'loook'; 'look' is near to it");
    assert_eq!(one(told, "stays"), "true|true|false|!14");
    assert_eq!(one(told, "place"), "loook");
    assert_eq!(one(told, "mended"), "true|true|");
    assert_eq!(one(told, "before the slip"), "true|true|bore.txt: # The bore|text");
    assert_eq!(one(told, "earlier"), "true");
    assert_eq!(one(told, "empty"), "the file is empty");
    assert_eq!(one(told, "earlier of all"), "3|bore.txt: # of one's own");
}

pub fn marks(told: &Told) {
    let marked = [
        "    lower: do probe_down -> [l]oook|none|^",
        "    begin -> 𝔸 [e]nd|none|^",
        "    begin ->[]|none|^|true",
        "    - * 2; expect [d]ril|none|^",
        "    [d]ril 150|none|^",
        "    scheme 1 Fr[.]sen|none|^",
    ];
    assert_eq!(all(told, "marked"), marked);
    assert_eq!(one(told, "selected"), "end");
}

pub fn boxes(told: &Told) {
    let boxes = ["false|zeros", "true||sheet", "true||text", "true|", "true|", "true|", "true|"];
    assert_eq!(all(told, "box"), boxes);
    assert_eq!(one(told, "out of the text"), "sheet");
}

pub fn timed(told: &Told) {
    assert_eq!(one(told, "nodes"), "256");
    for kind in ["letter", "comment", "step"] {
        let times: Vec<f64> =
            one(told, kind).split('|').map(|time| time.parse().expect("milliseconds")).collect();
        let [middle, least, known] = times[..] else { panic!("{times:?}") };
        println!("256 nodes: a {kind} takes {middle} ms, at least {least}; known work of {KNOWN_WORK} ms beside it \
             {known} ms");
        let most = MOST_FOR_A_KEY * (known / KNOWN_WORK).max(1.0);
        assert!(least < most, "each {kind} takes longer than {most} ms");
    }
    let (run, long) = one(told, "long").split_once('|').expect("a run and its milliseconds");
    assert_eq!(run, "tick 65535 of 65535");
    println!("a run of 65,536 ticks takes {long} ms");
}

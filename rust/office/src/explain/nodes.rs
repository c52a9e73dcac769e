//! Refusals 4 to 7 and 19: fields, schemes, arcs, calls and the handler's mark of node records.

use crate::problem::{listed, Problem};

use super::voice::Voice;

pub type Record = [u8; 10];

const BEGIN: u8 = 0;
const END: u8 = 1;
const OPERATION: u8 = 2;
pub const CONDITION: u8 = 3;
const FUNCTION: u8 = 4;

/// Where fields stand in a record.
pub const SCHEME: usize = 1;
pub const ARGUMENT: usize = 2;
pub const NEXT: usize = 3;
const RESULT: usize = 5;

/// A kind with its article.
fn kind_named(kind: u8) -> &'static str {
    match kind {
        BEGIN => "a Begin",
        END => "an End",
        OPERATION => "an operation",
        CONDITION => "a condition",
        _ => "a function",
    }
}

/// A byte as it stands, and in decimal where that looks different.
fn both(byte: u8) -> String {
    if byte < 10 {
        format!("{byte:02X}")
    } else {
        format!("{byte:02X} ({byte} in decimal)")
    }
}

/// Refusal 4: the first field of the node outside its values.
pub fn field(records: &[Record], index: usize, voice: Voice) -> Option<Problem> {
    let record = records.get(index)?;
    let (byte, what, advice) = wrong_kind(record)
        .or_else(|| wrong_scheme(record))
        .or_else(|| wrong_number(record))
        .or_else(|| needless(record))?;
    Some(voice.problem(index, byte, &what).advice(advice))
}

/// The byte at fault, what is wrong with it, and what to look for.
type Wrong = (usize, String, &'static str);

fn wrong_kind(record: &Record) -> Option<Wrong> {
    let kind = record[0];
    if kind <= FUNCTION {
        return None;
    }
    let kinds = "it should be 00 Begin, 01 End, 02 operation, 03 condition or 04 function";
    let advice = match kind {
        0xFF => {
            "a line that begins with FF tells a refusal: it is what the programs print in place of an image"
        }
        0x0F..=0x12 => "0F, 10, 11 and 12 begin the lines of an image, not of a chart",
        _ => "a wrong digit, with the sum made to fit",
    };
    Some((0, format!("the kind is {kind:02X}; {kinds}"), advice))
}

fn wrong_scheme(record: &Record) -> Option<Wrong> {
    let scheme = record[SCHEME];
    let what = || format!("the scheme is {}; it should be 01 to 10, 1 to 16 in decimal", both(scheme));
    let advice = "a scheme number typed in decimal, or left out";
    (!(1..=16).contains(&scheme)).then(|| (SCHEME, what(), advice))
}

fn wrong_number(record: &Record) -> Option<Wrong> {
    match (record[0], record[ARGUMENT], record[RESULT]) {
        (BEGIN, mark @ 2.., _) => {
            let what = format!("the mark is {mark:02X}; it should be 00 (none) or 01 (the handler)");
            Some((ARGUMENT, what, "the number of a scheme or of a node one byte too early"))
        }
        (CONDITION, number @ 16.., _) => {
            let what = format!("the condition's number is {}; it should be 00 to 0F", both(number));
            Some((ARGUMENT, what, "a number typed in decimal: condition 10 is 0A"))
        }
        (OPERATION, _, result @ 3..) => {
            let what =
                format!("the result is {result:02X}; it should be 00 (keep), 01 (write 0) or 02 (write 1)");
            Some((RESULT, what, "a digit of the mask one place too far left"))
        }
        _ => None,
    }
}

/// The bytes that a kind has no use for.
fn unused(kind: u8) -> &'static [usize] {
    match kind {
        BEGIN => &[4, 5, 6, 7, 8, 9],
        END => &[2, 3, 4, 5, 6, 7, 8, 9],
        OPERATION => &[4],
        _ => &[5, 6, 7, 8, 9],
    }
}

fn needless(record: &Record) -> Option<Wrong> {
    let byte = *unused(record[0]).iter().find(|byte| record[**byte] != 0)?;
    let what = format!(
        "{:02X} stands here, but {} has no use for this byte: it should be 00",
        record[byte],
        kind_named(record[0])
    );
    Some((byte, what, "leftovers from a line that was of another kind before; digits shifted by two"))
}

fn highest(records: &[Record]) -> u8 {
    records.iter().map(|record| record[SCHEME]).max().unwrap_or(0)
}

fn nodes_of(records: &[Record], test: impl Fn(&Record) -> bool) -> Vec<usize> {
    (0..records.len()).filter(|node| test(&records[*node])).collect()
}

/// The Begin of a scheme.
pub fn begin_of(records: &[Record], scheme: u8) -> Option<usize> {
    records.iter().position(|record| record[0] == BEGIN && record[SCHEME] == scheme)
}

/// Refusal 5: the first scheme without just one Begin and one End.
pub fn ends(records: &[Record], voice: Voice) -> Option<Problem> {
    (1..=highest(records)).find_map(|scheme| {
        let all = nodes_of(records, |record| record[SCHEME] == scheme);
        if all.is_empty() {
            return Some(missing_scheme(records, scheme, voice));
        }
        [BEGIN, END].into_iter().find_map(|kind| one_of(records, &all, kind, voice))
    })
}

fn missing_scheme(records: &[Record], scheme: u8, voice: Voice) -> Problem {
    let highest = highest(records);
    let at = nodes_of(records, |record| record[SCHEME] == highest)[0];
    let (missing, used) = (voice.scheme(scheme), voice.scheme(highest));
    let words = format!("{missing} has no nodes, though {used} has ({})", voice.node(at));
    Problem::new(words).advice("a scheme's number left out, or one typed wrong")
}

/// A scheme that has no Begin or End, or more than one.
fn one_of(records: &[Record], all: &[usize], kind: u8, voice: Voice) -> Option<Problem> {
    let scheme = voice.scheme(records[all[0]][SCHEME]);
    let (named, one) = if kind == BEGIN { ("Begin", "a Begin") } else { ("End", "an End") };
    let found: Vec<usize> = all.iter().copied().filter(|node| records[*node][0] == kind).collect();
    match found[..] {
        [] => {
            let words = format!("{scheme} has no {named}; its {}", those(all, voice));
            Some(
                Problem::new(words)
                    .advice(format!("{one} left out, or one with the number of another scheme")),
            )
        }
        [_] => None,
        [first, second, ..] => {
            let what = format!("a second {named} of {scheme}; the first is {}", voice.node(first));
            let place =
                voice.either("that was copied and kept the number of its scheme", "below the wrong scheme");
            let advice = format!("{one} {place}");
            Some(voice.problem(second, SCHEME, &what).advice(advice))
        }
    }
}

/// The most nodes that a message lists.
const LISTED: usize = 6;

fn those(nodes: &[usize], voice: Voice) -> String {
    let mut shown: Vec<String> = nodes.iter().take(LISTED).map(|node| voice.node(*node)).collect();
    if nodes.len() > LISTED {
        shown.push(format!("{} more", nodes.len() - LISTED));
    }
    let are = if nodes.len() == 1 { "node is" } else { "nodes are" };
    format!("{are} {}", listed(&shown))
}

/// Refusal 19: the Begin of scheme 1 where that is marked, else the second that is; all of them are named.
pub fn marks(records: &[Record], voice: Voice) -> Option<Problem> {
    let marked = nodes_of(records, |record| record[0] == BEGIN && record[ARGUMENT] != 0);
    let of_scheme_1 = marked.iter().find(|node| records[**node][SCHEME] == 1);
    let (at, what) = match (of_scheme_1, &marked[..]) {
        (Some(at), _) => (*at, format!("{} cannot be the handler", voice.scheme(1))),
        (None, [_, second, ..]) => (*second, "a second handler".to_string()),
        _ => return None,
    };
    let begins: Vec<String> = marked.iter().map(|node| voice.node(*node)).collect();
    let what = format!("{what}; marked Begins: {}", listed(&begins));
    let advice = voice.either(
        "byte 2 of a Begin, which is 01 for the handler alone",
        "the words 'when the stack is full', which stand in the begin line of the handler alone",
    );
    Some(voice.problem(at, ARGUMENT, &what).advice(advice))
}

/// The bytes that hold a record's arcs, and how a message calls each.
pub fn arcs(record: &Record) -> &'static [(usize, &'static str)] {
    match record[0] {
        BEGIN | OPERATION => &[(NEXT, "the next node")],
        CONDITION | FUNCTION => &[(NEXT, "the next node on a 0"), (NEXT + 1, "the next node on a 1")],
        _ => &[],
    }
}

/// Refusal 6: the first arc of the node that leads where none may.
pub fn arc(records: &[Record], index: usize, voice: Voice) -> Option<Problem> {
    let record = records.get(index)?;
    arcs(record).iter().find_map(|(byte, named)| {
        let to = usize::from(record[*byte]);
        let why = wrong_target(records, record, to, voice)?;
        let what = format!("{named} is {}", why);
        let advice = voice.either(
            "node numbers that moved when a line was put in or taken out; numbers count from 00",
            "a name of another scheme's node; a call in place of an arc",
        );
        Some(voice.problem(index, *byte, &what).advice(advice))
    })
}

fn wrong_target(records: &[Record], record: &Record, to: usize, voice: Voice) -> Option<String> {
    let Some(target) = records.get(to) else {
        let last = voice.target(records.len() - 1);
        return Some(format!("{}, but the last node is {last}", both(to as u8)));
    };
    let to = voice.target(to);
    if target[SCHEME] != record[SCHEME] {
        let (theirs, ours) = (voice.scheme(target[SCHEME]), voice.scheme(record[SCHEME]));
        Some(format!("{to}, which belongs to {theirs}, but this node to {ours}"))
    } else if target[0] == BEGIN {
        Some(format!("{to}, a Begin"))
    } else {
        None
    }
}

/// Refusal 7: the scheme that the node calls.
pub fn call(records: &[Record], index: usize, voice: Voice) -> Option<Problem> {
    let record = records.get(index)?;
    let (kind, called, highest) = (record[0], record[ARGUMENT], highest(records));
    let named = kind_named(kind);
    let (byte, what) = match (kind, called) {
        (OPERATION, 0) => return None,
        (FUNCTION, _) if highest == 1 => (0, format!("{named} calls a scheme, but there is one scheme only")),
        (FUNCTION, 0) => (ARGUMENT, format!("{named} calls a scheme, and 00 is none")),
        (OPERATION | FUNCTION, 1) => {
            (ARGUMENT, format!("{named} calls {}, which nothing may call", voice.scheme(1)))
        }
        (OPERATION | FUNCTION, called) if called > highest => {
            let (called, highest) = (voice.scheme(called), voice.scheme(highest));
            (ARGUMENT, format!("{named} calls {called}, but the highest is {highest}"))
        }
        _ => return None,
    };
    let advice = voice.either(
        "a scheme that was left out; a digit one place too far; an operation turned into a function",
        "a scheme that was left out; the name of another scheme",
    );
    Some(voice.problem(index, byte, &what).advice(advice))
}

//! Valid charts of all sizes, half of them with a handler. A scheme grows as a tree from its Begin, which joins every node;
//! the arcs left over then go anywhere that makes no circle of conditions.

use super::ladders;
use super::Random;
use reference::chart::Kind;
use reference::frames::Frame;

/// A node of one scheme, its arcs by position in that scheme.
#[derive(Clone)]
struct Draft {
    kind: Kind,
    argument: u8,
    arcs: [usize; 2],
    result: u8,
    mask: u32,
}

/// What the schemes of one chart have in common: how many there are, how many condition numbers they test, the
/// weights of conditions and of calls against 3 for operations, and whether schemes call themselves.
struct Settings {
    schemes: usize,
    numbers: usize,
    conditions: usize,
    calls: usize,
    self_calls: bool,
}

/// The records of a chart that refusals 4 to 9 let pass.
pub fn chart(random: &mut Random) -> Vec<Frame> {
    match random.below(16) {
        0 => ladders::chart(random),
        1 => large(random),
        2..=4 => sized(random, 16, 12),
        5 | 6 => sized(random, 2, 3),
        _ => sized(random, 5, 8),
    }
}

/// At most so many schemes, each with at most so many nodes between Begin and End.
fn sized(random: &mut Random, most_schemes: usize, most_nodes: usize) -> Vec<Frame> {
    let schemes = random.within(1, most_schemes);
    let bodies: Vec<usize> = (0..schemes).map(|_| random.within(0, most_nodes)).collect();
    build(random, &bodies)
}

/// Any number of nodes up to the most that a chart can have, often the most, in 1 to 16 schemes.
fn large(random: &mut Random) -> Vec<Frame> {
    let schemes = random.pick(&[1, 2, 5, 16, 16]);
    let nodes = if random.once_in(2) { 256 } else { random.within(2 * schemes, 256) };
    let mut bodies = vec![0; schemes];
    for _ in 0..nodes - 2 * schemes {
        let scheme = random.below(schemes);
        bodies[scheme] += 1;
    }
    build(random, &bodies)
}

fn settings(random: &mut Random, schemes: usize) -> Settings {
    Settings {
        schemes,
        numbers: random.pick(&[1, 2, 3, 5, 16]),
        conditions: random.pick(&[0, 1, 2, 2, 4]),
        calls: random.pick(&[0, 2, 2, 4]),
        self_calls: random.once_in(3),
    }
}

fn build(random: &mut Random, bodies: &[usize]) -> Vec<Frame> {
    let settings = settings(random, bodies.len());
    let mut drafts = Vec::new();
    for (k, body) in bodies.iter().enumerate() {
        drafts.push(scheme(random, &settings, k + 1, *body));
    }
    if bodies.len() > 1 && random.once_in(2) {
        let handler = random.within(1, bodies.len() - 1);
        drafts[handler][0].argument = 1;
    }
    placed(random, &drafts)
}

/// All schemes in one chart, in the order drawn or in any other.
fn placed(random: &mut Random, schemes: &[Vec<Draft>]) -> Vec<Frame> {
    let count = schemes.iter().map(Vec::len).sum();
    let place = if random.once_in(2) { random.order(count) } else { (0..count).collect() };
    let mut records = vec![[0; 10]; count];
    let mut first = 0;
    for (k, drafts) in schemes.iter().enumerate() {
        for (at, draft) in drafts.iter().enumerate() {
            let to = |slot: usize| place[first + draft.arcs[slot]] as u8;
            records[place[first + at]] = record(draft, k as u8 + 1, to);
        }
        first += drafts.len();
    }
    records
}

fn record(draft: &Draft, scheme: u8, to: impl Fn(usize) -> u8) -> Frame {
    let [a, b, c, d] = draft.mask.to_be_bytes();
    let argument = draft.argument;
    match draft.kind {
        Kind::Begin => [0, scheme, argument, to(0), 0, 0, 0, 0, 0, 0],
        Kind::End => [1, scheme, 0, 0, 0, 0, 0, 0, 0, 0],
        Kind::Operation => [2, scheme, argument, to(0), 0, draft.result, a, b, c, d],
        Kind::Condition => [3, scheme, argument, to(0), to(1), 0, 0, 0, 0, 0],
        Kind::Function => [4, scheme, argument, to(0), to(1), 0, 0, 0, 0, 0],
    }
}

/// The nodes of one scheme: Begin first, End last.
fn scheme(random: &mut Random, settings: &Settings, number: usize, body: usize) -> Vec<Draft> {
    let mut drafts = vec![draft(random, settings, number, Kind::Begin)];
    let mut open = vec![(0, 0)];
    for _ in 0..body {
        let kind = kind(random, settings, number);
        join(random, &mut drafts, &mut open);
        let at = drafts.len();
        open.push((at, 0));
        if matches!(kind, Kind::Condition | Kind::Function) {
            open.push((at, 1));
        }
        drafts.push(draft(random, settings, number, kind));
    }
    join(random, &mut drafts, &mut open);
    drafts.push(draft(random, settings, number, Kind::End));
    for (at, slot) in open {
        drafts[at].arcs[slot] = free_arc(random, &drafts, at, slot);
    }
    drafts
}

/// Leads one of the open arcs to the node that is drawn next.
fn join(random: &mut Random, drafts: &mut [Draft], open: &mut Vec<(usize, usize)>) {
    let (at, slot) = open.swap_remove(random.below(open.len()));
    drafts[at].arcs[slot] = drafts.len();
}

fn kind(random: &mut Random, settings: &Settings, number: usize) -> Kind {
    let functions = if calls(settings, number) { settings.calls } else { 0 };
    let drawn = random.below(3 + settings.conditions + functions);
    if drawn < 3 {
        Kind::Operation
    } else if drawn < 3 + settings.conditions {
        Kind::Condition
    } else {
        Kind::Function
    }
}

fn draft(random: &mut Random, settings: &Settings, number: usize, kind: Kind) -> Draft {
    let argument = match kind {
        Kind::Condition => random.below(settings.numbers),
        Kind::Function => called(random, settings, number),
        Kind::Operation if calls(settings, number) && random.below(6) < settings.calls => {
            called(random, settings, number)
        }
        _ => 0,
    };
    let mask = match random.below(3) {
        0 => random.number() as u32,
        1 => 1 << random.below(32),
        _ => random.below(3) as u32,
    };
    Draft { kind, argument: argument as u8, arcs: [0; 2], result: random.below(3) as u8, mask }
}

/// Whether a scheme calls others: the last one only where schemes may call themselves, so that most calls return.
fn calls(settings: &Settings, number: usize) -> bool {
    number < settings.schemes || (settings.schemes > 1 && settings.self_calls)
}

/// The scheme itself, a later one (such calls come to an end), or any.
fn called(random: &mut Random, settings: &Settings, number: usize) -> usize {
    match random.below(5) {
        0 if settings.self_calls && number > 1 => number,
        1..=3 if number < settings.schemes => random.within(number + 1, settings.schemes),
        _ => random.within(2, settings.schemes),
    }
}

/// Where an arc that joins no new node goes: to the first node, to the End, where the node's other arc goes, or anywhere.
fn free_arc(random: &mut Random, drafts: &[Draft], at: usize, slot: usize) -> usize {
    let end = drafts.len() - 1;
    loop {
        let to = match random.below(14) {
            0 | 1 => 1,
            2..=8 => end,
            9 if drafts[at].arcs[1 - slot] != 0 => drafts[at].arcs[1 - slot],
            _ => random.within(1, end),
        };
        let both = drafts[at].kind == Kind::Condition && drafts[to].kind == Kind::Condition;
        if !both || to > at {
            return to;
        }
    }
}

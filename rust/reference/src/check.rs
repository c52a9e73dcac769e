//! Refusals 4 to 9, tried on node records, with 19 after 5.

use crate::answer::{refuse_if, refuse_lowest, Refusal};
use crate::chart::{Chart, Kind, Node};
use crate::frames::Frame;

/// The chart of these records, or the first of refusals 4, 5, 19 and 6 to 9.
pub fn chart_of(records: &[Frame]) -> Result<Chart, Refusal> {
    refuse_lowest(Refusal::BadField, records.len(), |f| !fields_stand(&records[f]))?;
    let nodes = records.iter().map(|r| Node::of(r).expect("a kind"));
    let chart = Chart { nodes: nodes.collect() };
    let count = chart.nodes.len();
    refuse_if(Refusal::BadScheme, (1..=chart.schemes()).any(|h| !one_of_each(&chart, h)))?;
    refuse_if(Refusal::BadMarks, bad_marks(&chart))?;
    refuse_lowest(Refusal::BadArc, count, |v| bad_arc(&chart, v))?;
    refuse_lowest(Refusal::BadCall, count, |v| bad_call(&chart, v))?;
    refuse_lowest(Refusal::Circle, count, |v| on_circle(&chart, v))?;
    // Past refusal 6 arcs stay in their scheme, so what any Begin reaches its own Begin reaches.
    let begins = (1..=chart.schemes()).map(|h| chart.begin(h)).collect();
    let joined = reached(&chart, begins, |_| true);
    refuse_lowest(Refusal::CutOff, count, |v| !joined[v])?;
    Ok(chart)
}

/// Whether every byte but arcs and called schemes is in its range, and 0 where the kind has no use for it.
fn fields_stand(record: &Frame) -> bool {
    let Some(node) = Node::of(record) else {
        return false;
    };
    let unused: &[usize] = match node.kind {
        Kind::Begin => &[4, 5, 6, 7, 8, 9],
        Kind::End => &[2, 3, 4, 5, 6, 7, 8, 9],
        Kind::Operation => &[4],
        Kind::Condition | Kind::Function => &[5, 6, 7, 8, 9],
    };
    (1..=16).contains(&node.scheme)
        && (node.kind != Kind::Begin || node.argument <= 1)
        && (node.kind != Kind::Condition || node.argument <= 15)
        && (node.kind != Kind::Operation || node.result <= 2)
        && unused.iter().all(|k| record[*k] == 0)
}

fn one_of_each(chart: &Chart, scheme: u8) -> bool {
    let count = |kind: Kind| {
        let wanted = |n: &&Node| n.kind == kind && n.scheme == scheme;
        chart.nodes.iter().filter(wanted).count()
    };
    count(Kind::Begin) == 1 && count(Kind::End) == 1
}

/// Whether scheme 1 is marked as the handler, or two schemes are.
fn bad_marks(chart: &Chart) -> bool {
    let marked: Vec<u8> = chart.nodes.iter().filter(|node| node.marks()).map(|node| node.scheme).collect();
    marked.contains(&1) || marked.len() > 1
}

fn bad_arc(chart: &Chart, at: usize) -> bool {
    let node = &chart.nodes[at];
    node.arcs().iter().any(|to| match chart.nodes.get(*to) {
        None => true,
        Some(target) => target.scheme != node.scheme || target.kind == Kind::Begin,
    })
}

fn bad_call(chart: &Chart, at: usize) -> bool {
    let node = &chart.nodes[at];
    let called = node.argument;
    let callable = 2 <= called && called <= chart.schemes();
    match node.kind {
        Kind::Operation => called != 0 && !callable,
        Kind::Function => !callable,
        _ => false,
    }
}

/// The nodes that arcs reach from the given ones, themselves included, going out of nodes that pass the test.
fn reached(chart: &Chart, from: Vec<usize>, goes_on: impl Fn(&Node) -> bool) -> Vec<bool> {
    let mut marks = vec![false; chart.nodes.len()];
    let mut open = from;
    while let Some(at) = open.pop() {
        if !marks[at] {
            marks[at] = true;
            if goes_on(&chart.nodes[at]) {
                open.extend(chart.nodes[at].arcs());
            }
        }
    }
    marks
}

fn on_circle(chart: &Chart, at: usize) -> bool {
    let node = &chart.nodes[at];
    node.kind == Kind::Condition && reached(chart, node.arcs(), |n| n.kind == Kind::Condition)[at]
}

//! What an accepted chart has that was likely not meant. The chart is accepted all the same.

use crate::chart::Node;
use crate::marking::called;
use crate::notation::Notation;
use crate::plan::Plan;
use crate::problem::{listed, Problem};

use super::nodes::{ARGUMENT, NEXT};
use super::voice::Voice;

/// The result field of an operation that writes 1.
const WRITES_1: u8 = 2;

/// All warnings of a chart, in the order of their lines.
pub fn warnings(plan: &Plan) -> Vec<Problem> {
    let notation = plan.source.notation.as_ref();
    let lines = notation.map(Notation::node_lines).unwrap_or_default();
    let voice = match notation {
        Some(_) => Voice::Notation { names: &plan.names, lines: &lines },
        None => Voice::Lines,
    };
    let of_nodes = (0..plan.nodes.len()).flat_map(|at| {
        let [own, across] = off_between(plan, at, voice);
        let others = [one_target(plan, at, voice), never_1(plan, at, voice), unreached(plan, at, voice)];
        others.into_iter().chain([own, across])
    });
    let mut all: Vec<Problem> =
        of_nodes.flatten().chain(notation.into_iter().flat_map(|own| unused(plan, own))).collect();
    all.sort_by_key(|warning| warning.line);
    all
}

/// A condition or a function whose two arcs lead to one node.
fn one_target(plan: &Plan, at: usize, voice: Voice) -> Option<Problem> {
    let arcs = plan.nodes[at].arcs();
    let same = arcs.len() == 2 && arcs[0] == arcs[1];
    let what = || format!("both arcs lead to {}, so nothing is decided here", voice.target(arcs[0]));
    same.then(|| voice.problem(at, NEXT, &what()))
}

/// A function whose scheme has no operation that writes 1.
fn never_1(plan: &Plan, at: usize, voice: Voice) -> Option<Problem> {
    let Node::Function { called, .. } = plan.nodes[at] else { return None };
    let writes =
        |node: &Node| matches!(*node, Node::Operation { scheme, result: WRITES_1, .. } if scheme == called);
    let what = || {
        let scheme = voice.scheme(called);
        format!("{scheme} never writes 1, so this function goes on as on a 0, unless another scheme serves its call")
    };
    (!plan.nodes.iter().any(writes)).then(|| voice.problem(at, ARGUMENT, &what()))
}

/// The Begin of a scheme to which no calls lead from scheme 1, nor from the handler, which a full stack starts.
fn unreached(plan: &Plan, at: usize, voice: Voice) -> Option<Problem> {
    let Node::Begin { scheme, .. } = plan.nodes[at] else { return None };
    let calls = |node: &Node| called(node) == scheme && node.scheme() != scheme;
    let what = || {
        let scheme = voice.scheme(scheme);
        match plan.nodes.iter().any(calls) {
            true => format!("no calls lead from scheme 1 to {scheme}: it is open only after a swap"),
            false => format!("no other scheme calls {scheme}: only a swap opens it"),
        }
    };
    (!reached(plan).contains(&scheme)).then(|| voice.problem(at, 1, &what()))
}

/// The schemes to which calls lead from scheme 1 and from the handler, these two first.
fn reached(plan: &Plan) -> Vec<u8> {
    let mut reached = vec![1, plan.handler()];
    let mut next = 0;
    while let Some(scheme) = reached.get(next).copied() {
        let own = plan.nodes.iter().filter(|node| node.scheme() == scheme).map(called);
        let new: Vec<u8> = own.filter(|called| !reached.contains(called)).collect();
        reached.extend(new);
        next += 1;
    }
    reached
}

/// Outputs that are on before and after what a node calls, and off between: its own, which are off in the tick of an End at least, and
/// those of the boxes before it, which are off in its own tick already.
fn off_between(plan: &Plan, at: usize, voice: Voice) -> [Option<Problem>; 2] {
    let own_tick = match plan.nodes[at] {
        Node::Operation { called: 1.., .. } => "in this box's own tick at least",
        Node::Function { .. } => "in the function's own tick at least",
        _ => return [None, None],
    };
    let off = |before: &[usize], after: &[usize], outputs: u32, between: &str| {
        let both = masks(plan, before) & masks(plan, after) & outputs;
        (both != 0)
            .then(|| voice.problem(at, ARGUMENT, &on_again(plan, voice, at, (before, after), both, between)))
    };
    let own = mask(plan, at);
    [
        off(&[at], &stops_after(plan, at), own, "in the tick of the called scheme's End at least"),
        off(&boxes_before(plan, at), &boxes_after(plan, at), !own, own_tick),
    ]
}

/// Outputs that are on in boxes before a node and again in boxes after it, in words.
fn on_again(
    plan: &Plan,
    voice: Voice,
    at: usize,
    (before, after): (&[usize], &[usize]),
    outputs: u32,
    between: &str,
) -> String {
    let name = |node: usize| if node == at { "here".to_string() } else { format!("in {}", voice.node(node)) };
    let named = |nodes: &[usize]| {
        let on = nodes.iter().filter(|node| mask(plan, **node) & outputs != 0);
        listed(&on.map(|node| name(*node)).collect::<Vec<String>>())
    };
    let are = if outputs.is_power_of_two() { "is" } else { "are" };
    let (outputs, before, after) = (listed(&plan.operations(outputs)), named(before), named(after));
    format!("{outputs} {are} on {before} and again {after}, and off between them, {between}")
}

/// The outputs of a node.
fn mask(plan: &Plan, at: usize) -> u32 {
    match plan.nodes[at] {
        Node::Operation { mask, .. } => mask,
        _ => 0,
    }
}

fn masks(plan: &Plan, nodes: &[usize]) -> u32 {
    nodes.iter().fold(0, |all, node| all | mask(plan, *node))
}

/// The nodes that take the next tick after a node's, when what it calls is done.
fn stops_after(plan: &Plan, at: usize) -> Vec<usize> {
    let (mut stops, mut open, mut seen) = (Vec::new(), plan.nodes[at].arcs(), vec![false; plan.nodes.len()]);
    while let Some(node) = open.pop() {
        if std::mem::replace(&mut seen[node], true) {
            continue;
        }
        match plan.marking.stops(node) {
            true => stops.push(node),
            false => open.extend(plan.nodes[node].arcs()),
        }
    }
    stops.sort_unstable();
    stops
}

/// The nodes that take the next tick after a node's, and after theirs where they call and put nothing out.
fn boxes_after(plan: &Plan, at: usize) -> Vec<usize> {
    let mut after = stops_after(plan, at);
    let mut next = 0;
    while let Some(stop) = after.get(next).copied() {
        if called(&plan.nodes[stop]) != 0 && mask(plan, stop) == 0 {
            let new = stops_after(plan, stop).into_iter().filter(|stop| !after.contains(stop));
            after.extend(new.collect::<Vec<usize>>());
        }
        next += 1;
    }
    after.sort_unstable();
    after
}

/// The operations whose next tick may be a node's, when what they call is done.
fn boxes_before(plan: &Plan, at: usize) -> Vec<usize> {
    let leads = |from: &usize| {
        matches!(plan.nodes[*from], Node::Operation { .. }) && stops_after(plan, *from).contains(&at)
    };
    (0..plan.nodes.len()).filter(leads).collect()
}

/// Names of conditions and outputs that no node uses.
fn unused(plan: &Plan, notation: &Notation) -> Vec<Problem> {
    let masks = (0..plan.nodes.len()).fold(0, |all, node| all | mask(plan, node));
    let told = |line: usize, what: String| Problem::on(line, 1, format!("line {line}: {what}"));
    let conditions = notation.condition_lines().filter(|(number, _)| plan.tested >> number & 1 == 0);
    let outputs = notation.output_lines().filter(|(number, _)| masks >> number & 1 == 0);
    let conditions = conditions.map(|(number, line)| {
        told(
            line,
            format!("condition {number} is named {}, and no node asks it", plan.names.condition(number)),
        )
    });
    let outputs = outputs.map(|(number, line)| {
        told(
            line,
            format!("output {number} is named {}, and no node puts it out", plan.names.operation(number)),
        )
    });
    conditions.chain(outputs).collect()
}

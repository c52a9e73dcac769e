//! A trace as a table that a person can read, and what it never took.

use super::{Coverage, Stopped, Tick, Trace};
use crate::columns::aligned;
use crate::marking::called;
use crate::plan::Plan;
use crate::problem::{counted, Problem};
use crate::wording::{listed, word};

/// The columns of the table, also of the page's.
pub const HEADINGS: [&str; 9] = [
    "tick",
    "word",
    "conditions at 1",
    "scheme",
    "node",
    "what happens",
    "outputs",
    "open schemes",
    "results at 1",
];

/// The cells of one tick, as the headings name them.
pub fn cells(plan: &Plan, number: usize, tick: &Tick) -> [String; 9] {
    [
        number.to_string(),
        word(tick.word),
        listed(&plan.conditions(tick.word)),
        plan.scheme_of(tick.node()),
        plan.node_title(tick.node()),
        plan.happening(tick),
        listed(&plan.operations(tick.mask)),
        plan.open_schemes(&tick.stack),
        listed(&plan.results(&tick.results)),
    ]
}

/// The whole report: the table, the refusal that ended it, and what was never taken.
pub fn report(plan: &Plan, trace: &Trace) -> String {
    let mut rows = vec![HEADINGS.map(str::to_string)];
    rows.extend(trace.ticks.iter().enumerate().map(|(number, tick)| cells(plan, number, tick)));
    let mut text = aligned(&rows, |column| column == 0);
    text.push('\n');
    if let Some(stopped) = &trace.stopped {
        text.push_str(&format!("{}\n\n", problem(plan, trace, stopped)));
    }
    for line in never_taken(plan, trace) {
        text.push_str(&line);
        text.push('\n');
    }
    text
}

/// Why a trace ended before its words did: the refusal in its own words, and the call that met it.
pub fn problem(plan: &Plan, trace: &Trace, stopped: &Stopped) -> Problem {
    let node = stopped.stack[stopped.stack.len() - 1].node;
    let count = trace.ticks.len();
    let told = plan.source.problem(stopped.refusal);
    if told.is_internal() {
        return told;
    }
    let swaps: String = stopped.swaps.iter().map(|swap| format!(", {}", plan.swapped(swap))).collect();
    let (word, at, scheme) = (word(stopped.word), plan.node_title(node), plan.scheme_of(node));
    let place = format!("tick {count}, word {word}{swaps}, node {at} of {scheme}");
    let words = match called(&plan.nodes[node]) {
        0 => format!("{place}: {}", told.words),
        scheme => {
            let (scheme, open) = (plan.names.scheme(scheme), plan.open_schemes(&stopped.stack));
            let (used, bottom) = (in_use(trace.places), at_bottom(plan));
            format!("{place}: the call of {scheme} finds the stack full, {used} ({open}){bottom}")
        }
    };
    Problem { words, ..told }
}

/// How many places a full stack has.
pub fn in_use(places: usize) -> String {
    match places {
        1 => "its one place in use".to_string(),
        _ => format!("all {places} places in use"),
    }
}

/// Why nothing is dropped where there is a handler: a full stack is refused only while it is at the bottom.
fn at_bottom(plan: &Plan) -> &'static str {
    match plan.handler() {
        0 => "",
        _ => ", with the handler at the bottom",
    }
}

/// How many nodes and arcs were never taken, and which.
pub fn never_taken(plan: &Plan, trace: &Trace) -> Vec<String> {
    let (nodes, arcs) = (trace.coverage.nodes_left(), trace.coverage.arcs_left());
    let (all_nodes, all_arcs) = (plan.nodes.len(), plan.arc_count());
    let ticks = counted(trace.ticks.len(), "tick");
    if nodes.is_empty() && arcs.is_empty() {
        let (nodes, arcs) = (counted(all_nodes, "node"), counted(all_arcs, "arc"));
        return vec![format!("{ticks}; every node and arc was taken ({nodes}, {arcs})")];
    }
    let head = format!(
        "{ticks}; never taken: {} of {}, {} of {}",
        nodes.len(),
        counted(all_nodes, "node"),
        arcs.len(),
        counted(all_arcs, "arc")
    );
    let left = left(plan, &trace.coverage).into_iter().map(|line| format!("  {line}"));
    std::iter::once(head).chain(left).collect()
}

/// The nodes and arcs that were never taken.
pub fn left(plan: &Plan, coverage: &Coverage) -> Vec<String> {
    let nodes = coverage.nodes_left().into_iter();
    let nodes = nodes.map(|at| format!("node {} of {}", plan.node_title(at), plan.scheme_of(at)));
    let arcs = coverage.arcs_left().into_iter().map(|arc| format!("arc {}", plan.arc_title(arc)));
    nodes.chain(arcs).collect()
}

//! What all scenarios together never took: nodes, arcs, results of functions and drops.

use super::Verdicts;
use crate::chart::Node;
use crate::problem::{counted, listed};
use crate::trace::coverage::droppable;
use crate::trace::table::left;

/// How many of each were never taken, and which; nothing where no scenario was run.
pub fn never_taken(verdicts: &Verdicts) -> Vec<String> {
    let Verdicts { plan, coverage, .. } = verdicts;
    if verdicts.not_run() == verdicts.verdicts.len() {
        return Vec::new();
    }
    let functions = plan.nodes.iter().filter(|node| matches!(node, Node::Function { .. })).count();
    let (results, drops) = (coverage.results_left(plan), coverage.drops_left(plan));
    let counts = [
        (coverage.nodes_left().len(), plan.nodes.len(), "node"),
        (coverage.arcs_left().len(), plan.arc_count(), "arc"),
        (results.len(), 2 * functions, "function result"),
        (drops.len(), droppable(plan).count(), "drop"),
    ];
    let there: Vec<&(usize, usize, &str)> = counts.iter().filter(|(_, all, _)| *all > 0).collect();
    if there.iter().all(|(left, _, _)| *left == 0) {
        let all: Vec<String> = there.iter().map(|(_, all, thing)| counted(*all, thing)).collect();
        return vec![format!("all were taken: {}", listed(&all))];
    }
    let told = there.iter().map(|(left, all, thing)| format!("{left} of {}", counted(*all, thing)));
    let head = format!("never taken: {}", told.collect::<Vec<String>>().join(", "));
    let results = results.into_iter().map(|arc| {
        let (node, scheme) = (plan.names.node(arc.from), plan.scheme_of(arc.from));
        format!("result {} at function {node} of {scheme}", arc.side)
    });
    let drops =
        drops.into_iter().map(|at| format!("drop at {} of {}", plan.names.node(at), plan.scheme_of(at)));
    [head].into_iter().chain(left(plan, coverage)).chain(results).chain(drops).collect()
}

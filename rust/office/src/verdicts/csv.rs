//! How often all scenarios together took each node and arc, each result of each function and each drop, as a table.

use super::Verdicts;
use crate::chart::Node;
use crate::formats::csv;
use crate::trace::coverage::droppable;
use crate::trace::Arc;

pub fn report(verdicts: &Verdicts) -> String {
    let Verdicts { plan, coverage, .. } = verdicts;
    let row = |what: &str, at: usize, value: Option<usize>, to: Option<usize>, times: usize| {
        let (scheme, name) = (plan.scheme_of(at), plan.names.node(at));
        let to = to.map(|to| plan.names.node(to));
        [
            what.to_string(),
            scheme,
            at.to_string(),
            name,
            csv::number(value),
            csv::number(to),
            times.to_string(),
        ]
    };
    let nodes = (0..plan.nodes.len()).map(|at| row("node", at, None, None, coverage.times(at)));
    let arcs = (0..plan.nodes.len()).flat_map(|from| {
        let (node, arcs) = (&plan.nodes[from], plan.nodes[from].arcs());
        let what = if matches!(node, Node::Function { .. }) { "result" } else { "arc" };
        // the value that takes it, where the node decides
        let value = |side| (arcs.len() == 2).then_some(side);
        let of_side = |side: usize| {
            let times = coverage.arc_times(Arc { from, side });
            row(what, from, value(side), Some(arcs[side]), times)
        };
        (0..arcs.len()).map(of_side).collect::<Vec<_>>()
    });
    let drops = droppable(plan).map(|at| row("drop", at, None, None, coverage.drop_times(at)));
    let heading = ["what", "scheme", "node", "name", "value", "to", "times"];
    csv::table(heading, nodes.chain(arcs).chain(drops))
}

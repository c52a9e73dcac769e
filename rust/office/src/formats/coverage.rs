//! How often a run took each node and arc of a chart, or each label and row of an image.

use crate::labels::run::{places, LabelRun};
use crate::marking::called;
use crate::plan::Plan;
use crate::subject::Subject;
use crate::trace::coverage::droppable;
use crate::trace::{Arc, Coverage};

use super::json::Json;

/// Of a chart: nodes, arcs by node and side, and the calls that a full stack can drop.
pub fn of_chart(plan: &Plan, coverage: &Coverage) -> Json {
    let nodes = (0..plan.nodes.len()).map(|at| {
        Json::Record(vec![
            ("node", at.into()),
            ("name", plan.names.node(at).into()),
            ("scheme", plan.scheme_of(at).into()),
            ("times", coverage.times(at).into()),
        ])
    });
    let arcs = (0..plan.nodes.len()).flat_map(|from| {
        let arcs = plan.nodes[from].arcs();
        let calls = called(&plan.nodes[from]) != 0;
        (0..arcs.len()).map(move |side| {
            // the value that takes it, where the node decides
            let value = (arcs.len() == 2).then_some(side);
            Json::Record(vec![
                ("from", from.into()),
                ("to", arcs[side].into()),
                ("value", value.into()),
                ("is_result", (calls && arcs.len() == 2).into()),
                ("times", coverage.arc_times(Arc { from, side }).into()),
            ])
        })
    });
    let drops = droppable(plan)
        .map(|at| Json::Record(vec![("node", at.into()), ("times", coverage.drop_times(at).into())]));
    Json::Record(vec![
        ("nodes", Json::List(nodes.collect())),
        ("arcs", Json::List(arcs.collect())),
        ("drops", Json::List(drops.collect())),
    ])
}

/// Of an image: labels by the scheme that is open there, and rows.
pub fn of_image(subject: &Subject, run: &LabelRun) -> Json {
    let labels = places(&subject.image).into_iter().map(|(label, scheme)| {
        Json::Record(vec![
            ("label", label.into()),
            ("name", subject.name(label).into()),
            ("scheme", subject.names().scheme(scheme).into()),
            ("times", run.times(label, scheme).into()),
        ])
    });
    let rows = (0..subject.image.rows().count())
        .map(|row| Json::Record(vec![("row", row.into()), ("times", run.row_times(row).into())]));
    Json::Record(vec![("labels", Json::List(labels.collect())), ("rows", Json::List(rows.collect()))])
}

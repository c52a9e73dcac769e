//! A chart as it is drawn: its nodes, their arcs, and the calls to the Begins of the schemes called.

use office::chart::Node;
use office::draw::{arc_id, call_id, labels, node_id, titled};
use office::marking::called;
use office::plan::Plan;
use office::trace::Arc;

use super::shapes::{Form, Shape};
use super::{Boxed, Frame, Kind, Line, Sheet};

pub fn sheet(plan: &Plan) -> Sheet {
    Sheet {
        frames: (1..=plan.schemes()).map(|scheme| frame(plan, scheme)).collect(),
        boxes: (0..plan.nodes.len()).map(|at| node(plan, at)).collect(),
    }
}

fn frame(plan: &Plan, scheme: u8) -> Frame {
    let begin = plan.marking.begin(scheme);
    let own = (0..plan.nodes.len()).filter(|at| plan.nodes[*at].scheme() == scheme && *at != begin);
    Frame {
        title: format!("scheme {}", plan.names.scheme(scheme)),
        boxes: std::iter::once(begin).chain(own).collect(),
    }
}

fn node(plan: &Plan, at: usize) -> Boxed {
    let (kind, form) = match plan.nodes[at] {
        Node::Begin { .. } | Node::End { .. } => (Kind::EdgeOfScheme, Form::Rounded),
        Node::Operation { .. } => (Kind::Operation, Form::Rectangle),
        Node::Condition { .. } => (Kind::Condition, Form::Diamond),
        Node::Function { .. } => (Kind::Function, Form::Hexagon),
    };
    let arcs = plan.nodes[at].arcs();
    let line = |id: String, to: usize, value: Option<usize>| Line { title: title(plan, &id), id, to, value };
    let arc = |(side, to): (usize, &usize)| {
        line(arc_id(Arc { from: at, side }), *to, (arcs.len() == 2).then_some(side))
    };
    let call = match called(&plan.nodes[at]) {
        0 => None,
        scheme => Some(line(call_id(plan, at, scheme), plan.marking.begin(scheme), None)),
    };
    let (id, shape) = (node_id(at), Shape::of(form, &labels::lines(plan, at)));
    Boxed {
        title: title(plan, &id),
        id,
        kind,
        shape,
        lines: arcs.iter().enumerate().map(arc).collect(),
        call,
    }
}

fn title(plan: &Plan, id: &str) -> String {
    titled(plan, id, "").unwrap_or_default()
}

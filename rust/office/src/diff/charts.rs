//! Two charts by their nodes: those of the same scheme and name, or of the same number where one of the two has no names.

use crate::chart::Node;
use crate::names::Names;
use crate::notation::said;
use crate::plan::Plan;

/// A node by its scheme and its name, or its number.
type Key = (u8, String);

/// A chart with the key of each node.
struct Keyed<'a> {
    plan: &'a Plan,
    keys: Vec<Key>,
}

/// What a node is, by the keys of the nodes that it leads to: its kind, the numbers that it holds, and where its arcs lead.
type Meaning = (u8, [u32; 4], Vec<Key>);

impl Keyed<'_> {
    fn of(plan: &Plan, by_name: bool) -> Keyed<'_> {
        let key = |(at, node): (usize, &Node)| match by_name {
            true => (node.scheme(), plan.names.node(at)),
            false => (0, format!("{at:03}")),
        };
        Keyed { keys: plan.nodes.iter().enumerate().map(key).collect(), plan }
    }

    fn meaning(&self, at: usize) -> Meaning {
        let node = &self.plan.nodes[at];
        let arcs = node.arcs().into_iter().map(|to| self.keys[to].clone()).collect();
        let scheme = u32::from(node.scheme());
        match *node {
            Node::Begin { handler, .. } => (0, [scheme, u32::from(handler), 0, 0], arcs),
            Node::End { .. } => (1, [scheme, 0, 0, 0], arcs),
            Node::Operation { called, result, mask, .. } => {
                (2, [scheme, u32::from(called), u32::from(result), mask], arcs)
            }
            Node::Condition { number, .. } => (3, [scheme, u32::from(number), 0, 0], arcs),
            Node::Function { called, .. } => (4, [scheme, u32::from(called), 0, 0], arcs),
        }
    }

    fn at(&self, key: &Key) -> Option<usize> {
        self.keys.iter().position(|own| own == key)
    }

    fn title(&self, at: usize) -> String {
        format!("node {} of {}", self.plan.names.node(at), self.plan.scheme_of(at))
    }

    fn said(&self, at: usize) -> String {
        format!("'{}'", said(&self.plan.nodes[at], &self.plan.names))
    }
}

/// What differs, a line each; nothing where both are the same. The second chart is the one that holds now.
pub fn differences(before: &Plan, after: &Plan) -> Vec<String> {
    let by_name = before.source.notation.is_some() && after.source.notation.is_some();
    let (old, new) = (Keyed::of(before, by_name), Keyed::of(after, by_name));
    let mut lines = if by_name { names(&before.names, &after.names) } else { Vec::new() };
    for (at, key) in new.keys.iter().enumerate() {
        match old.at(key) {
            None => lines.push(format!("{} is new: {}", new.title(at), new.said(at))),
            Some(was) if old.meaning(was) != new.meaning(at) => {
                lines.push(format!("{} says {}, not {}", new.title(at), new.said(at), old.said(was)));
            }
            Some(_) => {}
        }
    }
    for at in (0..old.keys.len()).filter(|at| new.at(&old.keys[*at]).is_none()) {
        lines.push(format!("{} is there no more: {}", old.title(at), old.said(at)));
    }
    if lines.is_empty() && old.keys != new.keys {
        lines.push("the nodes stand in another order".to_string());
    }
    if !lines.is_empty() {
        lines.extend(images(before, after));
    }
    lines
}

/// Whether the difference is one to the lathe.
fn images(before: &Plan, after: &Plan) -> Option<String> {
    let (Ok(old), Ok(new)) = (&before.image, &after.image) else { return None };
    (old.text == new.text).then(|| "the image is the same".to_string())
}

/// Conditions, outputs and schemes that are named otherwise.
fn names(old: &Names, new: &Names) -> Vec<String> {
    let mut lines = Vec::new();
    let mut told = |noun: &str, number: u8, was: String, is: String| {
        if was != is {
            lines.push(format!("{noun} {number} is named {is}, not {was}"));
        }
    };
    (0..16).for_each(|number| told("condition", number, old.condition(number), new.condition(number)));
    (0..32).for_each(|number| told("output", number, old.operation(number), new.operation(number)));
    (1..=16).for_each(|number| told("scheme", number, old.scheme(number), new.scheme(number)));
    lines
}

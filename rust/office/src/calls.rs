//! The calls of a chart, from scheme 1 on: a longest chain of them, or a circle that they reach.

use std::collections::BTreeMap;

use crate::chart::Node;
use crate::marking::{called, schemes};

/// How deep a chart calls, by all its nodes that call.
#[derive(Clone, Debug, PartialEq, Eq)]
pub enum Calls {
    /// The schemes of a longest chain, scheme 1 first.
    Chain(Vec<u8>),
    /// The nodes that call, one in each scheme of a circle; each calls the scheme of the next, the last that of the first.
    Circle(Vec<usize>),
}

impl Calls {
    /// The calls of an accepted chart. Where they go on for as many calls as there are schemes, some scheme is met twice.
    pub fn of(nodes: &[Node]) -> Calls {
        let walk = walk(nodes);
        if walk.len() == usize::from(schemes(nodes)) {
            return Calls::Circle(circle(nodes, &walk));
        }
        Calls::Chain([1].into_iter().chain(walk.iter().map(|node| called(&nodes[*node]))).collect())
    }
}

/// The nodes of a longest walk of calls from scheme 1, of as many calls as there are schemes at most.
fn walk(nodes: &[Node]) -> Vec<usize> {
    let mut walks = BTreeMap::from([(1, Vec::new())]);
    for _ in 0..schemes(nodes) {
        let longer = extended(nodes, &walks);
        if longer.is_empty() {
            break;
        }
        walks = longer;
    }
    walks.into_values().next().unwrap_or_default()
}

/// Walks by the scheme that they lead to, one for each, and each a call longer.
fn extended(nodes: &[Node], walks: &BTreeMap<u8, Vec<usize>>) -> BTreeMap<u8, Vec<usize>> {
    let mut longer = BTreeMap::new();
    for (at, node) in nodes.iter().enumerate().filter(|(_, node)| called(node) != 0) {
        if let Some(walk) = walks.get(&node.scheme()) {
            longer.entry(called(node)).or_insert_with(|| [walk.as_slice(), &[at]].concat());
        }
    }
    longer
}

/// The shortest part of a walk that leads from a scheme back to it.
fn circle(nodes: &[Node], walk: &[usize]) -> Vec<usize> {
    let parts = (1..=walk.len()).flat_map(|length| walk.windows(length));
    let closed = |part: &&[usize]| nodes[part[0]].scheme() == called(&nodes[part[part.len() - 1]]);
    parts.into_iter().find(closed).unwrap_or_default().to_vec()
}

//! The arcs that a tick takes, followed on the chart by the tick's word. It is a computation for display: what the
//! tick does is known from the library, and where the arcs end is held to the state that the library returns.

use super::Happening;
use crate::chart::Node;
use crate::marking::{called, Marking};
use crate::plan::Plan;

/// An arc by the node that it leaves and its side: 0, or 1 for the arc on a 1.
#[derive(Clone, Copy, Debug, PartialEq, Eq, PartialOrd, Ord)]
pub struct Arc {
    pub from: usize,
    pub side: usize,
}

/// The arcs of one tick and the node that they end at.
pub struct Path {
    pub arcs: Vec<Arc>,
    pub end: usize,
}

impl Path {
    fn start(at: usize) -> Path {
        Path { arcs: Vec::new(), end: at }
    }

    fn take(&mut self, nodes: &[Node], side: usize) {
        self.arcs.push(Arc { from: self.end, side });
        self.end = nodes[self.end].arcs()[side];
    }
}

/// The arcs that a tick takes from the open nodes, the bottom first, with the scheme that serves a call and the result bits before it.
pub fn path(
    plan: &Plan,
    happening: Happening,
    server: u8,
    stack: &[usize],
    results: &[bool; 16],
    word: u16,
) -> Path {
    let top = stack[stack.len() - 1];
    let entered = |scheme| entered(&plan.nodes, &plan.marking, scheme);
    let followed = |from| followed(&plan.nodes, &plan.marking, from, results, word);
    match happening {
        Happening::Home => entered(1),
        Happening::Call(_) => entered(server),
        Happening::Drop => entered(plan.handler()),
        // the handler at the bottom: it leads home by no arc
        Happening::Return if stack.len() == 1 => Path::start(plan.marking.end(1)),
        Happening::Return => followed(stack[stack.len() - 2]),
        Happening::Plain => followed(top),
    }
}

/// From the Begin of a scheme to where performing it starts.
pub fn entered(nodes: &[Node], marking: &Marking, scheme: u8) -> Path {
    let mut path = Path::start(marking.begin(scheme));
    if !marking.stops(path.end) {
        path.take(nodes, 0);
    }
    path
}

/// Out of a stop, then through the conditions that take no tick.
pub fn followed(nodes: &[Node], marking: &Marking, from: usize, results: &[bool; 16], word: u16) -> Path {
    let mut path = Path::start(from);
    loop {
        let side = side(&nodes[path.end], results, word);
        path.take(nodes, side);
        if marking.stops(path.end) {
            return path;
        }
    }
}

/// The side of the arc that is taken out of a node.
fn side(node: &Node, results: &[bool; 16], word: u16) -> usize {
    match *node {
        Node::Condition { number, .. } => usize::from(word >> number & 1),
        Node::Function { .. } => usize::from(results[usize::from(called(node)) - 1]),
        _ => 0,
    }
}

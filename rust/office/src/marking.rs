//! Labels by the marking method: which nodes take a tick, and the label that the machine keeps for each.

pub mod held;

use crate::chart::Node;

/// The nodes of the Begins and Ends by scheme, and the nodes of labels 2 up.
#[derive(Clone, Debug)]
pub struct Marking {
    begins: Vec<usize>,
    ends: Vec<usize>,
    labelled: Vec<usize>,
}

/// The scheme that a node calls, 0 for none.
pub fn called(node: &Node) -> u8 {
    match *node {
        Node::Operation { called, .. } | Node::Function { called, .. } => called,
        _ => 0,
    }
}

/// The scheme that is performed when the stack is full, 0 for none.
pub fn handler(nodes: &[Node]) -> u8 {
    let begin = nodes.iter().find(|node| matches!(node, Node::Begin { handler: true, .. }));
    begin.map_or(0, Node::scheme)
}

/// How many schemes a chart has.
pub fn schemes(nodes: &[Node]) -> u8 {
    nodes.iter().map(Node::scheme).max().unwrap_or(0)
}

fn position(nodes: &[Node], wanted: impl Fn(&Node) -> bool) -> usize {
    nodes.iter().position(wanted).expect("an accepted chart has one in each scheme")
}

/// Whether the Begin of scheme 1 leads to this node.
fn starts(nodes: &[Node], at: usize) -> bool {
    nodes.iter().any(|node| matches!(node, Node::Begin { scheme: 1, next, .. } if *next == at))
}

/// Whether a node has a label of its own, 2 or higher: operations, functions, the condition that scheme 1 begins with,
/// and a Begin elsewhere that leads to a condition.
fn has_own_label(nodes: &[Node], at: usize) -> bool {
    match nodes[at] {
        Node::Operation { .. } | Node::Function { .. } => true,
        Node::Condition { scheme, .. } => scheme == 1 && starts(nodes, at),
        Node::Begin { scheme, next, .. } => scheme != 1 && matches!(nodes[next], Node::Condition { .. }),
        Node::End { .. } => false,
    }
}

impl Marking {
    /// The marking of an accepted chart.
    pub fn of(nodes: &[Node]) -> Marking {
        let begin = |h| position(nodes, |node| matches!(node, Node::Begin { scheme, .. } if *scheme == h));
        let end = |h| position(nodes, |node| matches!(node, Node::End { scheme } if *scheme == h));
        Marking {
            begins: (1..=schemes(nodes)).map(begin).collect(),
            ends: (1..=schemes(nodes)).map(end).collect(),
            labelled: (0..nodes.len()).filter(|at| has_own_label(nodes, *at)).collect(),
        }
    }

    pub fn begin(&self, scheme: u8) -> usize {
        self.begins[usize::from(scheme) - 1]
    }

    pub fn end(&self, scheme: u8) -> usize {
        self.ends[usize::from(scheme) - 1]
    }

    /// The label of a node: 0 for Begin and End of scheme 1, 1 for every other End, then the stops in frame order.
    pub fn label(&self, node: usize) -> Option<usize> {
        if node == self.begins[0] || node == self.ends[0] {
            return Some(0);
        }
        if self.ends.contains(&node) {
            return Some(1);
        }
        self.labelled.binary_search(&node).ok().map(|place| place + 2)
    }

    /// How many labels there are.
    pub fn labels(&self) -> usize {
        self.labelled.len() + 2
    }

    /// Whether a node takes a tick. The tick of label 0 is that of scheme 1's End.
    pub fn stops(&self, node: usize) -> bool {
        self.label(node).is_some() && node != self.begins[0]
    }

    /// The node that a label stands for in an open scheme.
    pub fn node(&self, label: u8, scheme: u8) -> usize {
        match label {
            0 => self.end(1),
            1 => self.end(scheme),
            _ => self.labelled[usize::from(label) - 2],
        }
    }
}

//! A chart as nodes, and which of them stop.

use crate::frames::Frame;

#[derive(Clone, Copy, Debug, PartialEq, Eq)]
pub enum Kind {
    Begin,
    End,
    Operation,
    Condition,
    Function,
}

/// One node. `argument` is the scheme called, a condition's number, or 1 in a Begin that is marked.
#[derive(Clone, Copy, Debug)]
pub struct Node {
    pub kind: Kind,
    pub scheme: u8,
    pub argument: u8,
    pub on0: usize,
    pub on1: usize,
    pub result: u8,
    pub mask: u32,
}

impl Node {
    /// The node of a record; None where its kind is not one of the five.
    pub fn of(record: &Frame) -> Option<Node> {
        let kind = match record[0] {
            0 => Kind::Begin,
            1 => Kind::End,
            2 => Kind::Operation,
            3 => Kind::Condition,
            4 => Kind::Function,
            _ => return None,
        };
        Some(Node {
            kind,
            scheme: record[1],
            argument: record[2],
            on0: usize::from(record[3]),
            on1: usize::from(record[4]),
            result: record[5],
            mask: u32::from_be_bytes([record[6], record[7], record[8], record[9]]),
        })
    }

    /// The nodes that this node's arcs lead to.
    pub fn arcs(&self) -> Vec<usize> {
        match self.kind {
            Kind::Begin | Kind::Operation => vec![self.on0],
            Kind::End => vec![],
            Kind::Condition | Kind::Function => vec![self.on0, self.on1],
        }
    }

    /// The arc that a value takes.
    pub fn arc(&self, value: bool) -> usize {
        if value {
            self.on1
        } else {
            self.on0
        }
    }

    /// Whether this node marks its scheme as the handler.
    pub fn marks(&self) -> bool {
        self.kind == Kind::Begin && self.argument == 1
    }

    /// What a word says of this condition.
    pub fn tested(&self, word: u16) -> bool {
        word >> self.argument & 1 == 1
    }
}

/// A chart; node numbers are indices.
#[derive(Clone, Debug)]
pub struct Chart {
    pub nodes: Vec<Node>,
}

impl Chart {
    pub fn schemes(&self) -> u8 {
        self.nodes.iter().map(|n| n.scheme).max().unwrap_or(0)
    }

    /// The one node of a kind in a scheme; only for charts past refusal 5.
    fn only(&self, kind: Kind, scheme: u8) -> usize {
        let wanted = |n: &Node| n.kind == kind && n.scheme == scheme;
        self.nodes.iter().position(wanted).expect("one in each scheme")
    }

    pub fn begin(&self, scheme: u8) -> usize {
        self.only(Kind::Begin, scheme)
    }

    pub fn end(&self, scheme: u8) -> usize {
        self.only(Kind::End, scheme)
    }

    /// The scheme that is marked as the handler; only for charts past refusal 19.
    pub fn handler(&self) -> Option<u8> {
        self.nodes.iter().find(|node| node.marks()).map(|node| node.scheme)
    }

    /// Whether the Begin of this scheme leads to a condition.
    fn begins_with_condition(&self, scheme: u8) -> bool {
        let begin = self.begin(scheme);
        self.nodes[self.nodes[begin].on0].kind == Kind::Condition
    }

    /// Whether a node takes a tick.
    pub fn stops(&self, at: usize) -> bool {
        let node = &self.nodes[at];
        match node.kind {
            Kind::Operation | Kind::Function | Kind::End => true,
            Kind::Condition => node.scheme == 1 && self.nodes[self.begin(1)].on0 == at,
            Kind::Begin => node.scheme != 1 && self.begins_with_condition(node.scheme),
        }
    }

    /// Where performing a scheme starts.
    pub fn start(&self, scheme: u8) -> usize {
        let begin = self.begin(scheme);
        if self.stops(begin) {
            begin
        } else {
            self.nodes[begin].on0
        }
    }
}

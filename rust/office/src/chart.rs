//! An accepted chart as nodes, made of the records that the proved reader hands out.

/// A node by its kind, with the fields that the kind uses. Nodes are named by their index. A Begin may mark its scheme as
/// the handler, which is performed when the stack is full.
#[derive(Clone, Copy, Debug, PartialEq, Eq)]
pub enum Node {
    Begin { scheme: u8, handler: bool, next: usize },
    End { scheme: u8 },
    Operation { scheme: u8, called: u8, next: usize, result: u8, mask: u32 },
    Condition { scheme: u8, number: u8, next0: usize, next1: usize },
    Function { scheme: u8, called: u8, next0: usize, next1: usize },
}

impl Node {
    /// From a record of ten bytes that the reader accepted.
    fn from_record(record: &[u8]) -> Node {
        let (scheme, argument) = (record[1], record[2]);
        let (next0, next1) = (usize::from(record[3]), usize::from(record[4]));
        match record[0] {
            0 => Node::Begin { scheme, handler: argument != 0, next: next0 },
            1 => Node::End { scheme },
            2 => {
                let mask = u32::from_be_bytes([record[6], record[7], record[8], record[9]]);
                Node::Operation { scheme, called: argument, next: next0, result: record[5], mask }
            }
            3 => Node::Condition { scheme, number: argument, next0, next1 },
            _ => Node::Function { scheme, called: argument, next0, next1 },
        }
    }

    pub fn scheme(&self) -> u8 {
        match *self {
            Node::Begin { scheme, .. }
            | Node::End { scheme }
            | Node::Operation { scheme, .. }
            | Node::Condition { scheme, .. }
            | Node::Function { scheme, .. } => scheme,
        }
    }

    /// Where its arcs lead: none, one, or those on a 0 and on a 1.
    pub fn arcs(&self) -> Vec<usize> {
        match *self {
            Node::End { .. } => vec![],
            Node::Begin { next, .. } | Node::Operation { next, .. } => vec![next],
            Node::Condition { next0, next1, .. } | Node::Function { next0, next1, .. } => vec![next0, next1],
        }
    }
}

/// The nodes of accepted records, in frame order.
pub fn nodes(records: &[u8]) -> Vec<Node> {
    records.chunks_exact(10).map(Node::from_record).collect()
}

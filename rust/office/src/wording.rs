//! Nodes, arcs, words, masks and ticks in the shop's words.

use crate::chart::Node;
use crate::names::Names;
use crate::plan::Plan;
use crate::trace::swaps::Swap;
use crate::trace::{Arc, Happening, Opened, Tick};

/// What stands where a list is empty.
pub const NONE: &str = "-";

/// A word as `--words` takes it.
pub fn word(word: u16) -> String {
    format!("0x{word:04X}")
}

/// Names in a row, or a dash.
pub fn listed(names: &[String]) -> String {
    if names.is_empty() {
        NONE.to_string()
    } else {
        names.join(" ")
    }
}

/// What kind of node it is.
pub fn kind(node: &Node) -> &'static str {
    match node {
        Node::Begin { .. } => "Begin",
        Node::End { .. } => "End",
        Node::Operation { .. } => "operation",
        Node::Condition { .. } => "condition",
        Node::Function { .. } => "function",
    }
}

impl Plan {
    /// A node by name, with its kind where it is no operation and the name does not say so.
    pub fn node_title(&self, at: usize) -> String {
        let (name, node) = (self.names.node(at), &self.nodes[at]);
        if matches!(node, Node::Operation { .. }) || name.eq_ignore_ascii_case(kind(node)) {
            return name;
        }
        format!("{name} ({})", kind(node))
    }

    pub fn scheme_of(&self, at: usize) -> String {
        self.names.scheme(self.nodes[at].scheme())
    }

    /// An arc by the names of its two nodes, with the value that takes it, and its scheme.
    pub fn arc_title(&self, arc: Arc) -> String {
        let target = self.names.node(self.nodes[arc.from].arcs()[arc.side]);
        let value = match self.nodes[arc.from] {
            Node::Condition { number, .. } => format!(", {} = {}", self.names.condition(number), arc.side),
            Node::Function { called, .. } => format!(", {} = {}", self.names.scheme(called), arc.side),
            _ => String::new(),
        };
        format!("{}{value} -> {target} of {}", self.names.node(arc.from), self.scheme_of(arc.from))
    }

    /// The conditions that are 1 in a word, of those that the chart tests.
    pub fn conditions(&self, word: u16) -> Vec<String> {
        self.names.conditions(word & self.tested)
    }

    /// The outputs of a mask.
    pub fn operations(&self, mask: u32) -> Vec<String> {
        self.names.operations(mask)
    }

    /// The schemes whose numbers' result bits are 1.
    pub fn results(&self, results: &[bool; 16]) -> Vec<String> {
        self.names.results(results)
    }

    /// A swap that was made, by the names of its schemes.
    pub fn swapped(&self, swap: &Swap) -> String {
        self.names.swapped(swap)
    }

    /// The swaps made right before a tick, and what it does. Which schemes a drop drops is told by those that are open.
    pub fn happening(&self, tick: &Tick) -> String {
        happening(&self.names, &tick.swaps, tick.happening(), tick.stack.len(), tick.server, self.handler())
    }

    /// How many schemes are open, and which, the bottom first; equal ones in a row are named once, with their number. One that
    /// serves another's number is named with it.
    pub fn open_schemes(&self, stack: &[Opened]) -> String {
        let schemes: Vec<(u8, u8)> = stack.iter().map(|opened| self.opened(opened)).collect();
        self.names.open_schemes(&schemes)
    }

    /// An open scheme, and the number that it was called by.
    fn opened(&self, opened: &Opened) -> (u8, u8) {
        (self.nodes[opened.node].scheme(), opened.number)
    }

    /// An open scheme by its name, and what it serves where that is another's number.
    pub fn open_scheme(&self, opened: &Opened) -> String {
        self.names.served(self.opened(opened))
    }
}

/// The swaps made right before a tick, and what it does, with so many schemes open before it, the scheme that serves its call, and the
/// handler.
pub fn happening(
    names: &Names,
    swaps: &[Swap],
    happening: Happening,
    open: usize,
    server: u8,
    handler: u8,
) -> String {
    let own = match (happening, open) {
        (Happening::Plain, _) => "plain".to_string(),
        (Happening::Return, 1) => "return to home".to_string(),
        (Happening::Return, _) => "return".to_string(),
        (Happening::Home, _) => "home".to_string(),
        (Happening::Call(number), _) if server != number => {
            format!("call of {}, served by {}", names.scheme(number), names.scheme(server))
        }
        (Happening::Call(number), _) => format!("call of {}", names.scheme(number)),
        (Happening::Drop, open) => format!("drop of {open}, start of {}", names.scheme(handler)),
    };
    swaps.iter().map(|swap| names.swapped(swap)).chain([own]).collect::<Vec<String>>().join("; ")
}

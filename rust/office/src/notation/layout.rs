//! The notation as text, laid out: labels in one column, what nodes do in the next.

use crate::chart::{nodes, Node};
use crate::columns;
use crate::names::Names;

use super::{Interlock, Line, Notation, Part, WHEN_FULL};

/// Labels longer than this push their line out.
const WIDEST: usize = 20;

/// The text of a notation.
pub fn layout(notation: &Notation) -> String {
    let (nodes, names) = (nodes(&notation.records), &notation.names);
    let page = Page { nodes, names, interlocks: &notation.interlocks };
    let width = (0..page.nodes.len()).filter_map(|node| page.label(node)).map(|label| columns::width(&label));
    let width = width.max().unwrap_or(0).min(WIDEST) + 1;
    let mut text = String::new();
    for line in &notation.lines {
        text.push_str(&page.line(line, width));
        text.push('\n');
    }
    text
}

/// What a node says behind its name.
pub fn said(node: &Node, names: &Names) -> String {
    Page { nodes: Vec::new(), names, interlocks: &[] }.step(node)
}

struct Page<'a> {
    nodes: Vec<Node>,
    names: &'a Names,
    interlocks: &'a [Interlock],
}

impl Page<'_> {
    fn line(&self, line: &Line, width: usize) -> String {
        let statement = match line.part {
            Part::Nothing => String::new(),
            Part::Condition(number) => format!("condition {number} {}", self.names.condition(number)),
            Part::Output(number) => format!("output {number} {}", self.names.operation(number)),
            Part::Scheme(number) => self.scheme(number),
            Part::Interlock(number) => self.interlocks[number].said(self.names),
            Part::Node(node) => {
                let label = self.label(node).map_or(String::new(), |label| format!("{label}:"));
                let pad = width.saturating_sub(columns::width(&label));
                format!("{label}{:pad$} {}", "", self.step(&self.nodes[node]))
            }
        };
        match &line.comment {
            None => statement,
            Some(comment) if statement.is_empty() => format!("#{comment}"),
            Some(comment) => format!("{statement}  #{comment}"),
        }
    }

    fn scheme(&self, number: u8) -> String {
        let name = self.names.schemes.get(&number).map_or(String::new(), |name| format!(" {name}"));
        format!("scheme {number}{name}")
    }

    /// A node's name; a Begin or End that is called so has none.
    fn label(&self, node: usize) -> Option<String> {
        Some(self.names.node(node)).filter(|name| name != "begin" && name != "end")
    }

    fn step(&self, node: &Node) -> String {
        let to = |node: usize| self.names.node(node);
        match *node {
            Node::Begin { handler: true, next, .. } => format!("begin {WHEN_FULL} -> {}", to(next)),
            Node::Begin { next, .. } => format!("begin -> {}", to(next)),
            Node::End { .. } => "end".to_string(),
            Node::Operation { called, next, result, mask, .. } => {
                format!("{} -> {}", self.operation(called, result, mask), to(next))
            }
            Node::Condition { number, next0, next1, .. } => {
                format!("if {} then {} else {}", self.names.condition(number), to(next1), to(next0))
            }
            Node::Function { called, next0, next1, .. } => {
                format!("if call {} then {} else {}", self.names.scheme(called), to(next1), to(next0))
            }
        }
    }

    /// What an operation does, in the order in which it does it.
    fn operation(&self, called: u8, result: u8, mask: u32) -> String {
        let mut parts = Vec::new();
        if mask != 0 {
            let set = (0..32).filter(|bit| mask >> bit & 1 == 1);
            let outputs: Vec<String> = set.map(|bit| self.names.operation(bit)).collect();
            parts.push(format!("do {}", outputs.join(", ")));
        }
        if result != 0 {
            parts.push(format!("write {}", result - 1));
        }
        if called != 0 {
            parts.push(format!("call {}", self.names.scheme(called)));
        }
        if parts.is_empty() {
            parts.push("do nothing".to_string());
        }
        parts.join("; ")
    }
}

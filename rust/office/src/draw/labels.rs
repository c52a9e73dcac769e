//! What is written in a node of the drawing.

use crate::chart::Node;
use crate::escape::escaped;
use crate::notation::WHEN_FULL;
use crate::plan::Plan;
use crate::wording::kind;

/// The longest line of outputs, in characters; a longer list is broken.
const LONGEST: usize = 26;

/// The lines of a node, as graphviz writes them.
pub fn label(plan: &Plan, at: usize) -> String {
    in_table(&lines(plan, at))
}

/// Its name in bold, what it does, and its label in small, with graphviz's marks for these.
pub fn lines(plan: &Plan, at: usize) -> Vec<String> {
    let name = escaped(&plan.names.node(at));
    let mut lines = match plan.nodes[at] {
        Node::Begin { handler: true, .. } => {
            vec![edge_of_scheme(kind(&plan.nodes[at]), &name), WHEN_FULL.to_string()]
        }
        Node::Begin { .. } | Node::End { .. } => vec![edge_of_scheme(kind(&plan.nodes[at]), &name)],
        Node::Condition { number, .. } => {
            vec![format!("<B>{}</B> ?", escaped(&plan.names.condition(number))), small(&name)]
        }
        Node::Function { called, .. } => {
            vec![format!("<B>{name}</B>"), format!("{} ?", escaped(&plan.names.scheme(called)))]
        }
        Node::Operation { .. } => operation(plan, at, &name),
    };
    if let Some(label) = plan.label(at) {
        lines.push(small(&format!("label {label}")));
    }
    lines
}

/// Lines below each other, as graphviz writes them.
pub fn in_table(lines: &[String]) -> String {
    let rows: String = lines.iter().map(|line| format!("<TR><TD>{line}</TD></TR>")).collect();
    format!("<<TABLE BORDER=\"0\" CELLBORDER=\"0\" CELLSPACING=\"0\" CELLPADDING=\"1\">{rows}</TABLE>>")
}

/// A Begin or an End, with its name where that says something else.
fn edge_of_scheme(kind: &str, name: &str) -> String {
    if name.eq_ignore_ascii_case(kind) {
        format!("<B>{kind}</B>")
    } else {
        format!("{kind} <B>{name}</B>")
    }
}

/// An operation: its name, outputs, the result that it writes and the scheme that it calls.
fn operation(plan: &Plan, at: usize, name: &str) -> Vec<String> {
    let Node::Operation { called, result, mask, .. } = plan.nodes[at] else { return Vec::new() };
    let mut lines = vec![format!("<B>{name}</B>")];
    lines.extend(broken(&plan.operations(mask)).iter().map(|line| escaped(line)));
    if result != 0 {
        lines.push(format!("result := {}", result - 1));
    }
    if called != 0 {
        lines.push(format!("call {}", escaped(&plan.names.scheme(called))));
    }
    lines
}

/// A line in small letters.
pub fn small(text: &str) -> String {
    format!("<FONT POINT-SIZE=\"8\">{text}</FONT>")
}

/// Names in lines that are not too long.
pub fn broken(names: &[String]) -> Vec<String> {
    let mut lines: Vec<String> = Vec::new();
    for name in names {
        match lines.last_mut() {
            Some(line) if line.chars().count() + 1 + name.chars().count() <= LONGEST => {
                line.push(' ');
                line.push_str(name);
            }
            _ => lines.push(name.clone()),
        }
    }
    lines
}

//! How a message speaks of nodes and schemes: by lines of digits, or by the notation's names and lines.

use crate::names::Names;
use crate::problem::Problem;

#[derive(Clone, Copy)]
pub enum Voice<'a> {
    /// A node's line is its index and 1.
    Lines,
    /// The line of each node in the notation.
    Notation { names: &'a Names, lines: &'a [usize] },
}

impl Voice<'_> {
    /// The line where a node stands, counted from 1.
    pub fn line(&self, node: usize) -> usize {
        match self {
            Voice::Lines => node + 1,
            Voice::Notation { lines, .. } => lines.get(node).copied().unwrap_or(node + 1),
        }
    }

    /// A node that a field leads to, with its line.
    pub fn target(&self, node: usize) -> String {
        match self {
            Voice::Lines => format!("{node:02X} (line {})", node + 1),
            Voice::Notation { names, .. } => format!("{} (line {})", names.node(node), self.line(node)),
        }
    }

    /// A node in a list of nodes, by its line and by its name if it has one.
    pub fn node(&self, node: usize) -> String {
        match self {
            Voice::Notation { names, .. } if !matches!(&*names.node(node), "begin" | "end") => {
                self.target(node)
            }
            _ => format!("line {}", self.line(node)),
        }
    }

    /// What to look for, in a text of lines or in the notation.
    pub fn either<'b>(&self, lines: &'b str, notation: &'b str) -> &'b str {
        match self {
            Voice::Lines => lines,
            Voice::Notation { .. } => notation,
        }
    }

    /// A scheme in decimal, with its digits where these look different, or by its name.
    pub fn scheme(&self, number: u8) -> String {
        match self {
            Voice::Notation { names, .. } if names.schemes.contains_key(&number) => {
                format!("scheme {}", names.scheme(number))
            }
            Voice::Lines if number > 9 => format!("scheme {number} ({number:02X})"),
            _ => format!("scheme {number}"),
        }
    }

    /// A problem of a node; the byte of its frame gives the column where the text is digits.
    pub fn problem(&self, node: usize, byte: usize, what: &str) -> Problem {
        match self {
            Voice::Lines => Problem::at(node + 1, 2 * byte + 1, what),
            Voice::Notation { names, .. } => {
                let line = self.line(node);
                let words = match &*names.node(node) {
                    name @ ("begin" | "end") => format!("line {line} ({name}): {what}"),
                    name => format!("line {line} (node {name}): {what}"),
                };
                Problem { line: Some(line), ..Problem::new(words) }
            }
        }
    }
}

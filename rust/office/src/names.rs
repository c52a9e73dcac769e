//! The shop's names for nodes, schemes, conditions and outputs.

use std::collections::BTreeMap;

use crate::trace::swaps::Swap;

/// Names by number; what has none is called by its number.
#[derive(Clone, Debug, Default, PartialEq, Eq)]
pub struct Names {
    pub nodes: BTreeMap<usize, String>,
    pub schemes: BTreeMap<u8, String>,
    pub conditions: BTreeMap<u8, String>,
    pub operations: BTreeMap<u8, String>,
}

fn by_number<K: Ord + std::fmt::Display>(names: &BTreeMap<K, String>, prefix: &str, key: K) -> String {
    names.get(&key).cloned().unwrap_or_else(|| format!("{prefix}{key}"))
}

impl Names {
    pub fn node(&self, index: usize) -> String {
        by_number(&self.nodes, "n", index)
    }

    pub fn scheme(&self, number: u8) -> String {
        by_number(&self.schemes, "s", number)
    }

    pub fn condition(&self, number: u8) -> String {
        by_number(&self.conditions, "x", number)
    }

    pub fn operation(&self, number: u8) -> String {
        by_number(&self.operations, "y", number)
    }

    /// The conditions of a mask.
    pub fn conditions(&self, mask: u16) -> Vec<String> {
        (0..16).filter(|number| mask >> number & 1 == 1).map(|number| self.condition(number)).collect()
    }

    /// The outputs of a mask.
    pub fn operations(&self, mask: u32) -> Vec<String> {
        (0..32).filter(|bit| mask >> bit & 1 == 1).map(|bit| self.operation(bit)).collect()
    }

    /// The schemes whose numbers' result bits are 1.
    pub fn results(&self, results: &[bool; 16]) -> Vec<String> {
        let ones = (1..=16).filter(|scheme| results[usize::from(*scheme) - 1]);
        ones.map(|scheme| self.scheme(scheme)).collect()
    }

    /// A swap that was made, by the names of its schemes.
    pub fn swapped(&self, swap: &Swap) -> String {
        let name = |number: usize| self.scheme(number as u8);
        match swap.number == swap.scheme {
            true => format!("{} now serves its own calls", name(swap.scheme)),
            false => format!("{} now serves {}", name(swap.scheme), name(swap.number)),
        }
    }

    /// A scheme that is open, and the number that it was called by where that is another's.
    pub fn served(&self, (scheme, number): (u8, u8)) -> String {
        match scheme == number {
            true => self.scheme(scheme),
            false => format!("{} for {}", self.scheme(scheme), self.scheme(number)),
        }
    }

    /// How many schemes are open, and which, each with the number that it was called by, the bottom first; equal ones in a row are
    /// named once, with how many.
    pub fn open_schemes(&self, open: &[(u8, u8)]) -> String {
        let repeated = |group: &[(u8, u8)]| match group.len() {
            1 => self.served(group[0]),
            count => format!("{} x{count}", self.served(group[0])),
        };
        let groups: Vec<String> = open.chunk_by(|a, b| a == b).map(repeated).collect();
        format!("{}: {}", open.len(), groups.join(" > "))
    }
}

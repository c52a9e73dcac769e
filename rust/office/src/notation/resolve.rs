//! Names looked up: statements to node records, in the order of their lines.

use std::collections::BTreeMap;
use std::fmt::Display;

use fairleadow::{CONDITIONS, OPERATIONS, RECORD, SCHEMES};

use crate::names::Names;
use crate::problem::Problem;

use super::near::nearest;
use super::statement::{Statement, Step};
use super::words::Word;
use super::{Interlock, InterlockKind};

/// A statement and its line.
pub type Numbered = (usize, Statement);

/// The records, names and interlocks of these statements.
pub fn resolved(statements: &[Numbered]) -> Result<(Vec<u8>, Names, Vec<Interlock>), Problem> {
    let mut tables = Tables::default();
    for (line, statement) in statements {
        tables.note(*line, statement)?;
    }
    let (mut records, mut interlocks) = (Vec::new(), Vec::new());
    for (line, statement) in statements {
        match statement {
            Statement::Node { step, .. } => {
                records.extend(tables.record(*line, records.len() / RECORD, step)?);
            }
            Statement::Interlock { column, kind, first, second } => {
                interlocks.push(tables.interlock(*line, *column, *kind, [first, second])?);
            }
            _ => {}
        }
    }
    Ok((records, tables.names(), interlocks))
}

/// Names of one kind: the number of each, with the line that gives it.
#[derive(Default)]
struct Table {
    numbers: BTreeMap<String, (u8, usize)>,
}

impl Table {
    fn declare(&mut self, kind: &Kind, number: u8, name: &Word, line: usize) -> Result<(), Problem> {
        let fault = |what: String| Err(Problem::at(line, name.column, what));
        if let Some(own) = kind.own_number(&name.text).filter(|own| *own != number) {
            return fault(format!("'{}' is the name of {} {own}", name.text, kind.noun));
        }
        if let Some((_, (other, at))) = self.numbers.iter().find(|(text, _)| **text == name.text)
            && *other != number
        {
            return fault(format!("'{}' is {} {other} already (line {at})", name.text, kind.noun));
        }
        if let Some((text, (_, at))) = self.numbers.iter().find(|(_, (other, _))| *other == number)
            && (*text != name.text || kind.noun != "scheme")
        {
            return fault(format!("{} {number} is named '{text}' already (line {at})", kind.noun));
        }
        self.numbers.insert(name.text.clone(), (number, line));
        Ok(())
    }

    /// The number of a name that was given, or of one that stands for its number.
    fn number(&self, kind: &Kind, name: &Word, line: usize) -> Result<u8, Problem> {
        let given = self.numbers.get(&name.text).map(|(number, _)| *number);
        given.or_else(|| kind.own_number(&name.text)).ok_or_else(|| {
            let known = self.numbers.keys().map(String::as_str);
            let advice = if kind.is_numbered(&name.text) {
                kind.range()
            } else {
                format!(
                    "a line such as '{} 2 {}'; without a name it is {}2",
                    kind.noun,
                    name.shown(),
                    kind.prefix
                )
            };
            unknown(line, name, kind.noun, known).advice(advice)
        })
    }

    fn names(&self, kind: &Kind) -> BTreeMap<u8, String> {
        let given = self.numbers.iter().map(|(name, (number, _))| (*number, name.clone()));
        given.filter(|(number, name)| kind.own_number(name) != Some(*number)).collect()
    }
}

/// A name that nothing has, with the one that was likely meant.
pub fn unknown<'a>(
    line: usize,
    name: &Word,
    noun: impl Display,
    known: impl Iterator<Item = &'a str>,
) -> Problem {
    let meant = nearest(&name.text, known).map_or(String::new(), |near| format!("; '{near}' is near to it"));
    Problem::at(line, name.column, format!("no {noun} is named '{}'{meant}", name.shown()))
}

/// What is named: the noun, the letter of the names that stand for numbers, and the numbers.
struct Kind {
    noun: &'static str,
    prefix: &'static str,
    first: usize,
    count: usize,
}

const CONDITION: Kind = Kind { noun: "condition", prefix: "x", first: 0, count: CONDITIONS };
const OUTPUT: Kind = Kind { noun: "output", prefix: "y", first: 0, count: OPERATIONS };
const SCHEME: Kind = Kind { noun: "scheme", prefix: "s", first: 1, count: SCHEMES };

impl Kind {
    /// Whether this is meant as the name of a number.
    fn is_numbered(&self, name: &str) -> bool {
        let number = name.strip_prefix(self.prefix);
        number.is_some_and(|number| !number.is_empty() && number.bytes().all(|digit| digit.is_ascii_digit()))
    }

    /// Which names of numbers there are.
    fn range(&self) -> String {
        let Kind { noun, prefix, first, count } = self;
        format!("the {noun}s without a name are {prefix}{first} to {prefix}{}", first + count - 1)
    }

    /// The number of a name such as x2, y31 or s16.
    fn own_number(&self, name: &str) -> Option<u8> {
        let number: usize = name.strip_prefix(self.prefix)?.parse().ok()?;
        let in_range = (self.first..self.first + self.count).contains(&number);
        (in_range && name == format!("{}{number}", self.prefix)).then_some(number as u8)
    }
}

/// The number of a scheme by its name, or by one that stands for its number.
pub fn scheme(names: &Names, name: &str) -> Option<u8> {
    let given = names.schemes.iter().find(|(_, own)| *own == name).map(|(number, _)| *number);
    given.or_else(|| SCHEME.own_number(name))
}

/// The number of a condition by its name, or by one that stands for its number.
pub fn condition(names: &Names, name: &str) -> Option<u8> {
    let given = names.conditions.iter().find(|(_, own)| *own == name).map(|(number, _)| *number);
    given.or_else(|| CONDITION.own_number(name))
}

/// The number of an output by its name, or by one that stands for its number.
pub fn output(names: &Names, name: &str) -> Option<u8> {
    let given = names.operations.iter().find(|(_, own)| *own == name).map(|(number, _)| *number);
    given.or_else(|| OUTPUT.own_number(name))
}

/// All that can be looked up.
#[derive(Default)]
struct Tables {
    conditions: Table,
    outputs: Table,
    schemes: Table,
    /// The node that each label stands for, and its line.
    labels: BTreeMap<String, (usize, usize)>,
    /// The scheme of each node, and the End of each scheme.
    scheme_of: Vec<u8>,
    ends: BTreeMap<u8, usize>,
    /// The names of nodes; a Begin or End without a label is called what it is.
    nodes: Vec<String>,
    current: Option<u8>,
}

impl Tables {
    fn note(&mut self, line: usize, statement: &Statement) -> Result<(), Problem> {
        match statement {
            Statement::Condition { number, name } => self.conditions.declare(&CONDITION, *number, name, line),
            Statement::Output { number, name } => self.outputs.declare(&OUTPUT, *number, name, line),
            Statement::Scheme { number, name } => {
                self.current = Some(*number);
                name.as_ref().map_or(Ok(()), |name| self.schemes.declare(&SCHEME, *number, name, line))
            }
            Statement::Interlock { .. } => Ok(()),
            Statement::Node { label, step } => self.note_node(line, label.as_ref(), step),
        }
    }

    /// Two different outputs.
    fn interlock(
        &self,
        line: usize,
        column: usize,
        kind: InterlockKind,
        [first, second]: [&Word; 2],
    ) -> Result<Interlock, Problem> {
        let output = |name: &Word| self.outputs.number(&OUTPUT, name, line);
        let interlock = Interlock { line, column, kind, first: output(first)?, second: output(second)? };
        match interlock.first == interlock.second {
            true => {
                Err(Problem::at(line, second.column, format!("'{}' stands on both sides", second.shown()))
                    .advice("two different outputs"))
            }
            false => Ok(interlock),
        }
    }

    fn note_node(&mut self, line: usize, label: Option<&Word>, step: &Step) -> Result<(), Problem> {
        let index = self.scheme_of.len();
        let Some(scheme) = self.current else {
            let what = "a node belongs to a scheme, and none is named yet";
            return Err(Problem::at(line, 1, what).advice("a line 'scheme 1' before the first node"));
        };
        self.scheme_of.push(scheme);
        if *step == Step::End {
            self.ends.entry(scheme).or_insert(index);
        }
        if let Some(label) = label
            && let Some((_, at)) = self.labels.insert(label.text.clone(), (index, line))
        {
            return Err(Problem::at(
                line,
                label.column,
                format!("'{}' is a node already (line {at})", label.text),
            ));
        }
        let unlabelled = if *step == Step::End { "end" } else { "begin" };
        self.nodes.push(label.map_or(unlabelled.to_string(), |label| label.text.clone()));
        Ok(())
    }

    /// The node that an arc leads to; the library looks at its scheme and kind.
    fn target(&self, line: usize, node: usize, to: &Word) -> Result<u8, Problem> {
        let found = if to.text == "end" {
            let scheme = self.scheme_of[node];
            let end = self.ends.get(&scheme).copied();
            end.ok_or_else(|| Problem::at(line, to.column, format!("scheme {scheme} has no 'end' line")))
        } else {
            let known = self.labels.keys().map(String::as_str).chain(["end"]);
            let found = self.labels.get(&to.text).map(|(index, _)| *index);
            found.ok_or_else(|| unknown(line, to, "node", known))
        };
        // A node past the last that a byte can hold makes too many nodes, which the library refuses first.
        found.map(|index| index as u8)
    }

    fn mask(&self, line: usize, outputs: &[Word]) -> Result<u32, Problem> {
        let mut mask = 0;
        for output in outputs {
            let bit = 1u32 << self.outputs.number(&OUTPUT, output, line)?;
            if mask & bit != 0 {
                return Err(Problem::at(line, output.column, format!("'{}' stands twice", output.text)));
            }
            mask |= bit;
        }
        Ok(mask)
    }

    fn record(&self, line: usize, node: usize, step: &Step) -> Result<[u8; RECORD], Problem> {
        let scheme = self.scheme_of[node];
        let target = |to: &Word| self.target(line, node, to);
        let called = |name: &Word| self.schemes.number(&SCHEME, name, line);
        Ok(match step {
            Step::Begin { handler, next } => [0, scheme, u8::from(*handler), target(next)?, 0, 0, 0, 0, 0, 0],
            Step::End => [1, scheme, 0, 0, 0, 0, 0, 0, 0, 0],
            Step::Operation { outputs, result, called: name, next } => {
                let [a, b, c, d] = self.mask(line, outputs)?.to_be_bytes();
                let called = name.as_ref().map_or(Ok(0), called)?;
                [2, scheme, called, target(next)?, 0, *result, a, b, c, d]
            }
            Step::Condition { tested, on1, on0 } => {
                let number = self.conditions.number(&CONDITION, tested, line)?;
                [3, scheme, number, target(on0)?, target(on1)?, 0, 0, 0, 0, 0]
            }
            Step::Function { called: name, on1, on0 } => {
                [4, scheme, called(name)?, target(on0)?, target(on1)?, 0, 0, 0, 0, 0]
            }
        })
    }

    /// The names given; those that only tell a number are left out.
    fn names(&self) -> Names {
        let named = self.nodes.iter().cloned().enumerate();
        Names {
            nodes: named.filter(|(index, name)| *name != format!("n{index}")).collect(),
            schemes: self.schemes.names(&SCHEME),
            conditions: self.conditions.names(&CONDITION),
            operations: self.outputs.names(&OUTPUT),
        }
    }
}

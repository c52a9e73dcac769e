//! Refusal 10: the rows of an accepted chart's stops, counted to find the stops that have the most.

use std::cmp::Reverse;

use fairleadow::ROWS;

use crate::problem::{listed, thousands, Problem};

use super::nodes::{begin_of, Record, CONDITION};
use super::paths::targets;
use super::voice::Voice;

/// How many stops with the most rows a message names.
const NAMED: usize = 3;

/// How many rows there are, and the stops that have the most.
pub fn rows(records: &[Record], voice: Voice) -> Option<Problem> {
    let counter = Counter::new(records);
    let mut counts: Vec<(usize, usize)> =
        (0..records.len()).map(|node| (counter.rows_of(node), node)).collect();
    let all: usize = counts.iter().map(|(count, _)| count).sum();
    if all <= ROWS {
        return None;
    }
    counts.sort_by_key(|(count, node)| (Reverse(*count), *node));
    let most: Vec<String> = counts
        .iter()
        .take_while(|(count, _)| *count > 0)
        .take(NAMED)
        .map(|(count, node)| format!("{} has {}", voice.node(*node), thousands(*count)))
        .collect();
    let (has, limit) = (thousands(all), thousands(ROWS));
    let words = format!("the chart has {has} rows, and {limit} are the most; {}", listed(&most));
    let advice =
        "long chains of different conditions after one stop: each doubles the rows, and an operation \
                  between them starts anew";
    Some(Problem { line: Some(voice.line(counts[0].1)), ..Problem::new(words) }.advice(advice))
}

struct Counter<'a> {
    records: &'a [Record],
    /// Whether each node takes a tick.
    stops: Vec<bool>,
}

impl Counter<'_> {
    fn new(records: &[Record]) -> Counter<'_> {
        let begin = begin_of(records, 1);
        let first = begin.map(|begin| usize::from(records[begin][3]));
        let stops = |node: usize| match records[node][0] {
            0 => records[node][1] != 1 && records[usize::from(records[node][3])][0] == CONDITION,
            CONDITION => first == Some(node),
            _ => true,
        };
        Counter { records, stops: (0..records.len()).map(stops).collect() }
    }

    /// The rows of one node: none for an End and for what takes no tick.
    fn rows_of(&self, node: usize) -> usize {
        let record = &self.records[node];
        match record[0] {
            _ if !self.stops[node] => 0,
            CONDITION => self.tested(node, 0, 0),
            _ => targets(record).into_iter().map(|to| self.paths(to, 0, 0)).sum(),
        }
    }

    /// The paths that go on from a node, with the conditions tested so far and their values.
    fn paths(&self, node: usize, care: u16, values: u16) -> usize {
        if self.stops[node] {
            1
        } else {
            self.tested(node, care, values)
        }
    }

    /// Both sides of a condition, or the side already taken.
    fn tested(&self, node: usize, care: u16, values: u16) -> usize {
        let record = &self.records[node];
        let bit = 1u16 << record[2];
        let [on0, on1] = [record[3], record[4]].map(usize::from);
        if care & bit != 0 {
            return self.paths(if values & bit == 0 { on0 } else { on1 }, care, values);
        }
        self.paths(on0, care | bit, values) + self.paths(on1, care | bit, values | bit)
    }
}

//! Refusals 8 and 9: circles of conditions, and nodes that are cut off.

use crate::problem::{listed, Problem};

use super::nodes::{arcs, begin_of, Record, CONDITION};
use super::voice::Voice;

/// The nodes that a record's arcs lead to, the arc on a 0 first.
pub fn targets(record: &Record) -> Vec<usize> {
    arcs(record).iter().map(|(byte, _)| usize::from(record[*byte])).collect()
}

/// A shortest way by arcs of conditions from a node back to itself.
fn circle(records: &[Record], start: usize) -> Option<Vec<usize>> {
    let mut before = vec![None; records.len()];
    let mut open = std::collections::VecDeque::from([start]);
    while let Some(at) = open.pop_front() {
        if records[at][0] != CONDITION {
            continue;
        }
        for to in targets(&records[at]) {
            if to == start {
                return Some(way(&before, start, at));
            }
            if before[to].is_none() {
                before[to] = Some(at);
                open.push_back(to);
            }
        }
    }
    None
}

/// The nodes from the start to the last one, by the node before each.
fn way(before: &[Option<usize>], start: usize, last: usize) -> Vec<usize> {
    let mut way = vec![last];
    while way[way.len() - 1] != start {
        let Some(node) = before[way[way.len() - 1]] else { break };
        way.push(node);
    }
    way.reverse();
    way
}

/// Refusal 8: the circle on which the condition lies.
pub fn on_circle(records: &[Record], index: usize, voice: Voice) -> Option<Problem> {
    let circle = circle(records, index)?;
    let second = *circle.get(1).unwrap_or(&index);
    let (byte, named) =
        *arcs(&records[index]).iter().find(|(byte, _)| usize::from(records[index][*byte]) == second)?;
    let what = if circle.len() == 1 {
        format!("{named} is this condition itself")
    } else {
        let mut round: Vec<String> = circle.iter().map(|node| voice.node(*node)).collect();
        round.push(voice.node(index));
        format!("a circle of conditions only: {}", round.join(" -> "))
    };
    let advice = "an arc that leads back too far: put an operation in the circle, even one that does nothing";
    Some(voice.problem(index, byte, &what).advice(advice))
}

/// Refusal 9: the node that no arcs join to its Begin.
pub fn cut_off(records: &[Record], index: usize, voice: Voice) -> Option<Problem> {
    let record = records.get(index)?;
    let begin = begin_of(records, record[1])?;
    if reached(records, begin)[index] {
        return None;
    }
    let from: Vec<usize> =
        (0..records.len()).filter(|node| targets(&records[*node]).contains(&index)).collect();
    let others: Vec<String> =
        from.iter().filter(|node| **node != index).map(|node| voice.node(*node)).collect();
    let why = match (others.len(), from.len()) {
        (0, 0) => "no arc leads to this node".to_string(),
        (0, _) => "only its own arc leads to this node".to_string(),
        (1, _) => format!("only {} leads to this node and is cut off too", others[0]),
        _ => format!("only {} lead to this node and are cut off too", listed(&others)),
    };
    let what =
        format!("{why}, so the Begin of {} ({}) never does", voice.scheme(record[1]), voice.node(begin));
    let advice =
        "a node that was taken out of the drawing and left in the list; an arc that should lead here";
    Some(voice.problem(index, 0, &what).advice(advice))
}

fn reached(records: &[Record], from: usize) -> Vec<bool> {
    let mut marks = vec![false; records.len()];
    let mut open = vec![from];
    while let Some(at) = open.pop() {
        if !std::mem::replace(&mut marks[at], true) {
            open.extend(targets(&records[at]));
        }
    }
    marks
}

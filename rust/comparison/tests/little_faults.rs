//! Libraries that list or fetch the little charts in one wrong way each: the comparison must find every one.

#[macro_use]
mod common;

use std::cell::OnceCell;

use common::is_found;
use reference::chart::{Kind, Node};
use reference::check::chart_of;
use reference::frames::{text_of, Frame};
use reference::little::{charts, nodes};
use reference::{as_the_reference, Answer, Library, Refusal};

faults! {
    // which charts there are
    LeavesOutTheFirst,
    LeavesOutTheLast,
    LeavesOutOne,
    ListsOneTwice,
    ForgetsMask0,
    ForgetsMask1,
    ForgetsConditions,
    ForgetsArcsToTheSameNode,
    BeginsWithTheBegin,
    EndsWithTheEnd,
    LetsMarksThrough,
    LetsOtherConditionsThrough,
    LetsOtherMasksThrough,
    LetsResultsThrough,
    LetsCirclesThrough,
    LetsCutOffNodesThrough,
    LetsTwoEndsThrough,
    ListsOneOfEachOrderOfTheSameNodes,
    // their order
    SwapsTheFirstTwo,
    SwapsTheLastTwo,
    ListsFromTheLast,
    ListsAsTheyAreTried,
    SortsByTheLastLineFirst,
    SortsByMasksBeforeArcs,
    SortsByTheArcOnA1First,
    SortsBySumsFirst,
    // how they are fetched
    CountsFromOne,
    CountsFromTheFirstOfTwoFrames,
    CutsTheNumber,
    CutsTheFrames,
    TakesTheLastForANumberPastIt,
    HasChartsOfOneFrame,
    HasChartsOfFiveFrames,
    // what is refused, written and counted
    LooksForRoomFirst,
    AsksForRoomForFourFrames,
    AsksForOneMore,
    WritesBeforeARefusal,
    WritesPastTheText,
    WritesSmallLetters,
    ForgetsTheLastLineFeed,
    CountsFrames,
}

/// The reference with one fault, and its lists of 2, 3 and 4 frames.
struct Faulty {
    fault: Fault,
    lists: [OnceCell<Vec<Vec<u8>>>; 3],
}

impl Faulty {
    fn new(fault: Fault) -> Faulty {
        Faulty { fault, lists: Default::default() }
    }

    /// The nodes that are tried.
    fn nodes(&self, frames: usize) -> Vec<Frame> {
        let mut all = nodes(frames);
        let of_kind = |kind: u8| nodes(frames).into_iter().filter(move |node| node[0] == kind);
        let with = |node: Frame, at: usize, byte: u8| {
            let mut node = node;
            node[at] = byte;
            node
        };
        match self.fault {
            ForgetsMask0 => all.retain(|node| node[0] != 2 || node[9] == 1),
            ForgetsMask1 => all.retain(|node| node[9] == 0),
            ForgetsConditions => all.retain(|node| node[0] != 3),
            ForgetsArcsToTheSameNode => all.retain(|node| node[0] != 3 || node[3] != node[4]),
            LetsMarksThrough => all.extend(of_kind(0).map(|node| with(node, 2, 1))),
            LetsOtherConditionsThrough => all.extend(of_kind(3).map(|node| with(node, 2, 1))),
            LetsOtherMasksThrough => all.extend(of_kind(2).map(|node| with(node, 9, node[9] + 2))),
            LetsResultsThrough => all.extend(of_kind(2).map(|node| with(node, 5, 1))),
            _ => {}
        }
        all
    }

    /// Whether a list of nodes is taken for a chart.
    fn accepts(&self, records: &[Frame]) -> bool {
        // a mark on scheme 1 is 19, which comes before all that is let through here
        let unmarked: Vec<Frame> = records
            .iter()
            .map(|record| if record[0] == 0 { [0, 1, 0, record[3], 0, 0, 0, 0, 0, 0] } else { *record })
            .collect();
        let refusal = chart_of(&unmarked).err();
        let but_for = |passed: fn(Refusal) -> bool| refusal.is_none_or(passed);
        let of_kind = |kind: u8| records.iter().filter(|record| record[0] == kind).count();
        match self.fault {
            LetsMarksThrough => refusal.is_none(),
            LetsCirclesThrough => but_for(|refusal| matches!(refusal, Refusal::Circle(_))),
            LetsCutOffNodesThrough => but_for(|refusal| matches!(refusal, Refusal::CutOff(_))),
            LetsTwoEndsThrough => {
                refusal.is_none() || of_kind(0) == 1 && of_kind(1) == 2 && self.joins(records)
            }
            BeginsWithTheBegin => refusal.is_none() && records[0][0] == 0,
            EndsWithTheEnd => refusal.is_none() && records[records.len() - 1][0] == 1,
            _ => refusal.is_none() && chart_of(records).is_ok(),
        }
    }

    /// Whether the arcs of a list of nodes lead from its Begin to all others and never to the Begin.
    fn joins(&self, records: &[Frame]) -> bool {
        let nodes: Vec<Node> = records.iter().filter_map(Node::of).collect();
        let is_begin = |at: usize| nodes[at].kind == Kind::Begin;
        let mut joined: Vec<bool> = (0..nodes.len()).map(is_begin).collect();
        for _ in 0..nodes.len() {
            for (at, node) in nodes.iter().enumerate() {
                if joined[at] {
                    node.arcs().iter().for_each(|to| joined[*to] = true);
                }
            }
        }
        joined.iter().all(|met| *met) && !nodes.iter().any(|node| node.arcs().iter().any(|to| is_begin(*to)))
    }

    /// By what charts are sorted.
    fn key(&self, records: &[Frame]) -> Vec<u8> {
        let mut lines: Vec<Vec<u8>> = records.iter().map(|record| text_of(&[*record])).collect();
        let pair = |line: &[u8], byte: usize| line[2 * byte..2 * byte + 2].to_vec();
        match self.fault {
            SortsByTheLastLineFirst => lines.reverse(),
            SortsByMasksBeforeArcs => {
                lines =
                    lines.iter().map(|line| [pair(line, 0), pair(line, 9), line.clone()].concat()).collect();
            }
            SortsByTheArcOnA1First => {
                lines =
                    lines.iter().map(|line| [pair(line, 0), pair(line, 4), line.clone()].concat()).collect();
            }
            SortsBySumsFirst => {
                lines = lines.iter().map(|line| [pair(line, 10), line.clone()].concat()).collect()
            }
            _ => {}
        }
        lines.concat()
    }

    fn list(&self, frames: usize) -> Vec<Vec<u8>> {
        let mut all = charts(frames, &self.nodes(frames), |records| self.accepts(records));
        match self.fault {
            ListsAsTheyAreTried => {}
            _ => all.sort_by_key(|records| self.key(records)),
        }
        let mut texts: Vec<Vec<u8>> = all.iter().map(|records| text_of(records)).collect();
        let (middle, last) = (texts.len() / 2, texts.len() - 1);
        match self.fault {
            LeavesOutTheFirst => drop(texts.remove(0)),
            LeavesOutTheLast => drop(texts.pop()),
            LeavesOutOne => drop(texts.remove(middle)),
            ListsOneTwice => texts.insert(middle, texts[middle].clone()),
            SwapsTheFirstTwo => texts.swap(0, 1),
            SwapsTheLastTwo => texts.swap(last - 1, last),
            ListsFromTheLast => texts.reverse(),
            ListsOneOfEachOrderOfTheSameNodes => texts = first_of_each(&all),
            _ => {}
        }
        texts
    }

    fn texts(&self, frames: usize) -> &[Vec<u8>] {
        match frames {
            2..=4 => self.lists[frames - 2].get_or_init(|| self.list(frames)),
            _ => &[],
        }
    }

    /// The text that is fetched, if there is one.
    fn fetched(&self, frames: usize, number: usize) -> Option<Vec<u8>> {
        let (frames, number) = match self.fault {
            CutsTheNumber => (frames, number & 0xFFFF_FFFF),
            CutsTheFrames => (frames & 0xFF, number),
            CountsFromOne => (frames, number.wrapping_sub(1)),
            HasChartsOfOneFrame if frames == 1 => (2, number),
            HasChartsOfFiveFrames if frames == 5 => (4, number),
            _ => (frames, number),
        };
        let all = self.texts(frames);
        let number = match self.fault {
            CountsFromTheFirstOfTwoFrames if frames > 2 => number.wrapping_sub(2),
            TakesTheLastForANumberPastIt => number.min(all.len().saturating_sub(1)),
            _ => number,
        };
        let mut text = all.get(number)?.clone();
        match self.fault {
            WritesSmallLetters => text.make_ascii_lowercase(),
            ForgetsTheLastLineFeed => drop(text.pop()),
            _ => {}
        }
        Some(text)
    }
}

/// The first chart of those whose nodes are of the same kinds and masks in any order.
fn first_of_each(charts: &[Vec<Frame>]) -> Vec<Vec<u8>> {
    let kinds = |records: &Vec<Frame>| {
        let mut sorted: Vec<[u8; 2]> = records.iter().map(|record| [record[0], record[9]]).collect();
        sorted.sort_unstable();
        sorted
    };
    let first = |at: &usize| !charts[..*at].iter().any(|other| kinds(other) == kinds(&charts[*at]));
    (0..charts.len()).filter(first).map(|at| text_of(&charts[at])).collect()
}

impl Library for Faulty {
    as_the_reference!(chart_calls, image_calls, run_calls, rebindings, spins, fresh, meaning);

    fn little_chart(&self, frames: usize, number: usize, out: &mut [u8]) -> Answer {
        if self.fault == LooksForRoomFirst && (2..=4).contains(&frames) && out.len() < 23 * frames {
            return Err(Refusal::NoRoom);
        }
        let Some(text) = self.fetched(frames, number) else {
            return Err(Refusal::NoLittleChart);
        };
        let asked = match self.fault {
            AsksForRoomForFourFrames => 92,
            AsksForOneMore => text.len() + 1,
            _ => text.len(),
        };
        if out.len() < asked {
            if self.fault == WritesBeforeARefusal {
                let room = out.len().min(text.len());
                out[..room].copy_from_slice(&text[..room]);
            }
            return Err(Refusal::NoRoom);
        }
        out[..text.len()].copy_from_slice(&text);
        if let (WritesPastTheText, Some(past)) = (self.fault, out.get_mut(text.len())) {
            *past = !*past;
        }
        Ok(if self.fault == CountsFrames { frames } else { text.len() })
    }
}

#[test]
fn every_fault_is_found() {
    for &fault in FAULTS {
        is_found(format_args!("{fault:?}"), &Faulty::new(fault), 20_000);
    }
}

/// What is put together of these parts without a fault is not found to be wrong.
#[test]
fn the_parts_alone_are_right() {
    for frames in 2..=4 {
        // a fault in what is counted leaves the lists as they are
        assert_eq!(Faulty::new(CountsFrames).texts(frames), reference::little::texts(frames));
    }
}

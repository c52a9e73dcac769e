//! Libraries with one fault each in the count of places: the comparison must find every one.

#[macro_use]
mod common;

use common::is_found;
use reference::chart::{Chart, Kind, Node};
use reference::entry::{self, chart_from_text};
use reference::frames::{frames_of, text_of, CHART_TEXT};
use reference::places::longest_chain;
use reference::translator::image_of;
use reference::{as_the_reference, Answer, Library, Refusal};

faults! {
    CountsCallsAndNotSchemes,
    MissesCallsOfFunctions,
    MissesCallsOfOperations,
    CountsSchemesWithinReach,
    RefusesACircleOutOfReach,
    MissesACircle,
    CountsAtMostFifteen,
    TriesCirclesBeforeRows,
    TriesCirclesBeforeMarks,
    TriesNoRows,
    CountsTheHandlerAsCalled,
}

/// The reference with one fault.
struct Faulty(Fault);

/// The chart with every node of a kind made an End, which calls nothing.
fn without(mut chart: Chart, kind: Kind) -> Chart {
    chart.nodes.iter_mut().filter(|node| node.kind == kind).for_each(|node| node.kind = Kind::End);
    chart
}

/// The chart with a call of the handler in scheme 1.
fn with_handler_called(mut chart: Chart) -> Chart {
    if let Some(argument) = chart.handler() {
        let call = Node { kind: Kind::Operation, scheme: 1, argument, on0: 0, on1: 0, result: 0, mask: 0 };
        chart.nodes.push(call);
    }
    chart
}

/// The text with no mark in any Begin.
fn unmarked(text: &[u8]) -> Vec<u8> {
    let mut records = frames_of(text, CHART_TEXT).expect("a text that came to 19");
    records.iter_mut().filter(|record| record[0] == 0).for_each(|record| record[2] = 0);
    text_of(&records)
}

/// How many schemes calls reach from scheme 1, itself counted.
fn within_reach(chart: &Chart) -> usize {
    let mut reached = vec![1];
    let mut next = 0;
    while next < reached.len() {
        let calls =
            |node: &&Node| matches!(node.kind, Kind::Operation | Kind::Function) && node.argument != 0;
        let own = chart.nodes.iter().filter(|node| node.scheme == reached[next]).filter(calls);
        let called: Vec<u8> = own.map(|node| node.argument).collect();
        called.into_iter().for_each(|scheme| {
            if !reached.contains(&scheme) {
                reached.push(scheme);
            }
        });
        next += 1;
    }
    reached.len()
}

/// Refusal 10 before 20, unless the fault has it otherwise.
fn counted(fault: Fault, chart: Chart) -> Answer {
    match fault {
        TriesNoRows => return longest_chain(&chart, 1),
        TriesCirclesBeforeRows => {
            longest_chain(&chart, 1)?;
        }
        _ => {}
    }
    image_of(&chart)?;
    let longest = longest_chain(&chart, 1);
    match fault {
        CountsCallsAndNotSchemes => longest.map(|count| count - 1),
        MissesCallsOfFunctions => longest_chain(&without(chart, Kind::Function), 1),
        MissesCallsOfOperations => longest_chain(&without(chart, Kind::Operation), 1),
        CountsSchemesWithinReach => longest.map(|_| within_reach(&chart)),
        RefusesACircleOutOfReach => {
            (1..=chart.schemes()).try_for_each(|scheme| longest_chain(&chart, scheme).map(|_| ()))?;
            longest
        }
        MissesACircle => Ok(longest.unwrap_or(within_reach(&chart))),
        CountsAtMostFifteen => longest.map(|count| count.min(15)),
        CountsTheHandlerAsCalled => longest_chain(&with_handler_called(chart), 1),
        _ => longest,
    }
}

impl Library for Faulty {
    as_the_reference!(
        read_chart,
        write_chart,
        translate,
        dry_run,
        image_calls,
        run_calls,
        rebindings,
        spins,
        value_calls,
    );

    fn places(&self, text: &[u8]) -> Answer {
        let answer = chart_from_text(text).and_then(|chart| counted(self.0, chart));
        match (self.0, answer) {
            (TriesCirclesBeforeMarks, Err(Refusal::BadMarks)) => {
                let later = entry::places(&unmarked(text));
                if later == Err(Refusal::CallsItself) {
                    later
                } else {
                    answer
                }
            }
            _ => answer,
        }
    }
}

#[test]
fn every_fault_is_found() {
    for &fault in FAULTS {
        is_found(format_args!("{fault:?}"), &Faulty(fault), 20_000);
    }
}

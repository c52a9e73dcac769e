//! What the calls take on the emulated board: for each entry point chart P and the input that took longest, as rows of the
//! table in docs/MEASUREMENTS.md, and for a live call the longest on a prepared table besides; with the word `all`, every
//! input. controller/count/count runs it.

use std::env;

use board::{may_be_slow, milliseconds, with_commas, Count, Counting};
use comparison::entry_point::EntryPoint;
use comparison::samples::worst::{candidates, Candidate, Origin};
use reference::prepare::is_table;
use reference::{Reference, Told};

/// An input, the number that was answered, and what the call took.
type Counted = (Candidate, u8, Count);

fn print_line(call: &str, (candidate, number, count): &Counted) {
    let (name, instructions) = (&candidate.name, with_commas(count.instructions));
    let how = match candidate.origin {
        Origin::ChartP => "",
        Origin::Sample => "sample",
        Origin::Construction => "construction",
        Origin::Search => "search",
    };
    let slow = match may_be_slow() {
        true => format!(" {:.2} |", milliseconds(count.slow_cycles)),
        false => String::new(),
    };
    println!(
        "| {call} | {name} | {how} | {number} | {instructions} | {:.2} |{slow}",
        milliseconds(count.cycles)
    );
}

/// The input of some that took longest; where a slow multiplier makes it another one, that too.
fn longest(lines: &[Counted], wanted: impl Fn(&Candidate) -> bool) -> Vec<&Counted> {
    let some = || lines.iter().filter(|(candidate, ..)| wanted(candidate));
    let mut chosen: Vec<&Counted> = some().max_by_key(|(.., count)| count.cycles).into_iter().collect();
    let slow = some().max_by_key(|(.., count)| count.slow_cycles).filter(|_| may_be_slow());
    chosen.extend(slow.filter(|slow| chosen[0].2.slow_cycles < slow.2.slow_cycles));
    chosen
}

fn print_entry(entry: EntryPoint, lines: &[Counted], all: bool) {
    let live = matches!(entry, EntryPoint::LiveTick | EntryPoint::LiveRun | EntryPoint::LiveSpin);
    let runs =
        matches!(entry, EntryPoint::Run | EntryPoint::DryRun | EntryPoint::PricedRun | EntryPoint::LiveRun);
    let words = if runs { " of 64 words" } else { "" };
    let call = format!("{}{words}", entry.name());
    let prepared = |candidate: &Candidate| live && is_table(&candidate.input.frames);
    let chosen = [
        longest(lines, |candidate| candidate.origin == Origin::ChartP),
        longest(lines, prepared),
        longest(lines, |candidate| candidate.origin != Origin::ChartP),
    ];
    match all {
        true => lines.iter().for_each(|line| print_line(&call, line)),
        false => chosen.iter().flatten().for_each(|line| print_line(&call, line)),
    }
}

fn main() {
    let all = env::args().nth(1).is_some_and(|word| word == "all");
    let mut board = Counting::start(&Reference);
    let mut calls = 0;
    let (head, line) = if may_be_slow() { (" ms, product 32 cycles |", "---:|") } else { ("", "") };
    println!("| Call | Input | From | Answer | Instructions | ms at 16 MHz |{head}");
    println!("|---|---|---|---:|---:|---:|{line}");
    for entry in EntryPoint::ALL {
        let mut counted = |candidate: Candidate| {
            let (made, count) = board.counted(|board| entry.make(board, &candidate.input));
            (candidate, made.answer.number(), count)
        };
        let lines: Vec<Counted> = candidates(entry).into_iter().map(&mut counted).collect();
        calls += lines.len();
        print_entry(entry, &lines, all);
    }
    println!("\n{calls} calls were counted.");
}

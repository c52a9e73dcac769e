//! A run of an image as a table that a person can read, and what it never took.

use fairleadow::Refusal;

use super::run::{LabelRun, LabelStop, LabelTick};
use super::words::row;
use crate::columns::aligned;
use crate::image::Open;
use crate::problem::{counted, Problem};
use crate::subject::Subject;
use crate::trace::table::{self, in_use};
use crate::wording::{happening, listed, word};

/// The columns of the table: those of a chart's, with the label in the node's place.
pub fn headings() -> [String; 9] {
    table::HEADINGS.map(|heading| if heading == "node" { "label" } else { heading }.to_string())
}

/// The schemes that are open, each with the number that it was called by.
pub fn open(stack: &[Open]) -> Vec<(u8, u8)> {
    stack.iter().map(|open| (open.scheme, open.number)).collect()
}

/// What a tick does.
pub fn happens(subject: &Subject, tick: &LabelTick) -> String {
    let (open, handler) = (tick.stack.len(), subject.image.handler());
    happening(subject.names(), &tick.swaps, tick.happening(), open, tick.server, handler)
}

/// The cells of one tick, as the headings name them.
pub fn cells(subject: &Subject, number: usize, tick: &LabelTick) -> [String; 9] {
    let (names, Open { label, scheme, .. }) = (subject.names(), tick.open());
    [
        number.to_string(),
        word(tick.word),
        listed(&names.conditions(tick.word & subject.image.tested())),
        names.scheme(scheme),
        subject.title(label, scheme),
        happens(subject, tick),
        listed(&names.operations(tick.mask)),
        names.open_schemes(&open(&tick.stack)),
        listed(&names.results(&tick.results)),
    ]
}

/// The whole report: the table, the refusal that ended it, and what was never taken.
pub fn report(subject: &Subject, run: &LabelRun) -> String {
    let mut rows = vec![headings()];
    rows.extend(run.ticks.iter().enumerate().map(|(number, tick)| cells(subject, number, tick)));
    let mut text = aligned(&rows, |column| column == 0) + "\n";
    if let Some(stopped) = &run.stopped {
        text.push_str(&format!("{}\n\n", problem(subject, run, stopped)));
    }
    text + &never_taken(subject, run).iter().map(|line| format!("{line}\n")).collect::<String>()
}

/// Why a run ended before its words did: the refusal in its own words, and the label that met it.
pub fn problem(subject: &Subject, run: &LabelRun, stopped: &LabelStop) -> Problem {
    let told = subject.problem(stopped.refusal);
    if told.is_internal() {
        return told;
    }
    let names = subject.names();
    let swaps: String = stopped.swaps.iter().map(|swap| format!(", {}", names.swapped(swap))).collect();
    let top = stopped.stack[stopped.stack.len() - 1];
    let at = format!("tick {}, word {}{swaps}, {}", run.ticks.len(), word(stopped.word), subject.place(top));
    let words = match (stopped.refusal, &stopped.stack[..]) {
        (Refusal::Full { .. }, _) => {
            let scheme = names.scheme(subject.image.called(top.label));
            let (used, open) = (in_use(run.places), names.open_schemes(&open(&stopped.stack)));
            let bottom = if subject.image.handler() == 0 { "" } else { ", with the handler at the bottom" };
            format!("{at}: the call of {scheme} finds the stack full, {used} ({open}){bottom}")
        }
        (Refusal::NoRow { .. }, [.., beneath, top]) if top.label == 1 => {
            format!("{at}: no row of {} matches", subject.place(*beneath))
        }
        (Refusal::NoRow { .. }, _) => format!("{at}: none of its rows matches"),
        _ => format!("{at}: {}", told.words),
    };
    Problem { words, ..told }
}

/// How many labels and rows were never taken, and which.
pub fn never_taken(subject: &Subject, run: &LabelRun) -> Vec<String> {
    let image = &subject.image;
    let is_taken = |label: u8| (1..=image.schemes()).any(|scheme| run.times(label, scheme) > 0);
    let labels = (0..image.labels()).map(|label| label as u8).filter(|label| !is_taken(*label));
    let labels: Vec<u8> = labels.collect();
    let rows: Vec<_> = image.rows().enumerate().filter(|(number, _)| !run.row_taken(*number)).collect();
    let ticks = counted(run.ticks.len(), "tick");
    let (all_labels, all_rows) = (counted(image.labels(), "label"), counted(image.rows().count(), "row"));
    if labels.is_empty() && rows.is_empty() {
        return vec![format!("{ticks}; every label and row was taken ({all_labels}, {all_rows})")];
    }
    let head =
        format!("{ticks}; never taken: {} of {all_labels}, {} of {all_rows}", labels.len(), rows.len());
    let label = |label: &u8| match label {
        0 | 1 => format!("  label {label} (End)"),
        _ => {
            let scheme = image.label(*label).owner;
            format!("  label {} of {}", subject.title(*label, scheme), subject.names().scheme(scheme))
        }
    };
    let labels = labels.iter().map(label);
    let rows = rows.iter().map(|(number, own)| format!("  row {number}, {}", row(subject, own)));
    [head].into_iter().chain(labels).chain(rows).collect()
}

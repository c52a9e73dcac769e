//! Interlocks of a chart in the notation: what its outputs must not do. Those of one tick are decided over the labels of the library's
//! image, for a label's outputs never change. Those of an order are tried on the library's machine, state by state. An image that is named by
//! the chart has its interlocks, with rows of its own.

mod order;

use fairleadow::PLACES;

use crate::image::Image;
use crate::notation::{Interlock, InterlockKind};
use crate::plan::Plan;
use crate::problem::{counted, listed, Problem};
use crate::subject::Subject;

use order::{tried, Rows, Tried};

/// The interlocks of a chart: what is told of those that hold, a line each, and those that do not.
#[derive(Default)]
pub struct Decided {
    pub held: Vec<String>,
    pub broken: Vec<Problem>,
}

/// What is told of an accepted chart's interlocks that hold, a line each, or those that do not.
pub fn told(plan: &Plan) -> Result<Vec<String>, Problem> {
    decided(plan)?.told()
}

/// Decides each interlock of an accepted chart.
pub fn decided(plan: &Plan) -> Result<Decided, Problem> {
    let interlocks = plan.source.notation.as_ref().map_or(&[][..], |notation| &notation.interlocks);
    let image = plan.image.as_ref().map_err(Problem::clone)?;
    let text = plan.source.notation.as_ref().map_or("", |notation| notation.text());
    let advice = "an output that is missing, one too many, or on too early; the chart itself is accepted, and all other commands take it";
    let mut decided = Decided::default();
    for interlock in interlocks {
        let said = interlock.said(&plan.names);
        match found(plan, image, Rows::Apart, interlock)? {
            Ok(how) => decided.held.push(format!("line {}: '{said}' {how}", interlock.line)),
            Err(why) => {
                let what = format!("'{said}' does not hold: {why}");
                let problem = Problem::at(interlock.line, interlock.column, what);
                decided.broken.push(problem.advice(advice).excerpt(text.as_bytes()));
            }
        }
    }
    Ok(decided)
}

impl Decided {
    /// Those that hold, or all that do not, told at the place of the first.
    pub fn told(self) -> Result<Vec<String>, Problem> {
        let words: Vec<&str> = self.broken.iter().map(|problem| problem.words.as_str()).collect();
        match self.broken.first() {
            None => Ok(self.held),
            Some(first) => Err(Problem { words: words.join("\n  "), ..first.clone() }),
        }
    }
}

/// Decides each interlock of the chart that names an image, over the image's labels and rows.
pub fn decided_on(subject: &Subject, plan: &Plan) -> Result<Decided, Problem> {
    let interlocks = plan.source.notation.as_ref().map_or(&[][..], |notation| &notation.interlocks);
    let mut decided = Decided::default();
    for interlock in interlocks {
        let said = format!("line {} of the chart: '{}'", interlock.line, interlock.said(&plan.names));
        match found(plan, &subject.image, Rows::Any, interlock)? {
            Ok(how) => decided.held.push(format!("{said} {how}")),
            Err(why) => {
                let problem = Problem::new(format!("{said} does not hold: {why}"));
                decided.broken.push(problem.advice(
                    "a row that leads past what must be on before, as a patch may have it; the image itself is accepted",
                ));
            }
        }
    }
    Ok(decided)
}

/// How an interlock holds, or why not.
fn found(
    plan: &Plan,
    image: &Image,
    rows: Rows,
    interlock: &Interlock,
) -> Result<Result<String, String>, Problem> {
    match interlock.kind {
        InterlockKind::Never | InterlockKind::Always => Ok(in_one_tick(plan, image, interlock)),
        InterlockKind::After => in_order(plan, image, rows, interlock),
    }
}

/// Over all labels.
fn in_one_tick(plan: &Plan, image: &Image, interlock: &Interlock) -> Result<String, String> {
    let is_broken = |mask: u32| {
        let [first, second] = [interlock.first, interlock.second].map(|number| mask >> number & 1 == 1);
        match interlock.kind {
            InterlockKind::Never => first && second,
            _ => second && !first,
        }
    };
    let labels =
        (2..image.labels()).map(|label| label as u8).filter(|label| is_broken(image.label(*label).mask));
    let nodes: Vec<String> = labels.map(|label| node(plan, label)).collect();
    let [first, second] = [interlock.first, interlock.second].map(|number| plan.names.operation(number));
    let puts_out = |label: usize| image.label(label as u8).mask >> interlock.second & 1 == 1;
    let (verb, nodes) = (if nodes.len() == 1 { "puts" } else { "put" }, listed(&nodes));
    match (interlock.kind, nodes.is_empty()) {
        (InterlockKind::Never, true) => Ok("holds: no node puts out both".to_string()),
        (InterlockKind::Never, false) => Err(format!("{nodes} {verb} out both")),
        (_, true) if !(2..image.labels()).any(puts_out) => Ok(format!("holds: no node puts out {second}")),
        (_, true) => Ok(format!("holds: each node that puts out {second} puts out {first}")),
        (_, false) => Err(format!("{nodes} {verb} out {second} without {first}")),
    }
}

/// The node of a label, and its line.
fn node(plan: &Plan, label: u8) -> String {
    let node = plan.marking.node(label, 1);
    let lines = plan.source.notation.as_ref().map(|notation| notation.node_lines()).unwrap_or_default();
    format!("{} (line {})", plan.names.node(node), lines.get(node).copied().unwrap_or(node + 1))
}

/// Over runs, state by state. Without a handler a smaller stack makes the same ticks up to a refusal; with one it drops earlier.
fn in_order(
    plan: &Plan,
    image: &Image,
    rows: Rows,
    interlock: &Interlock,
) -> Result<Result<String, String>, Problem> {
    let [first, second] = [interlock.first, interlock.second].map(|number| plan.names.operation(number));
    let (sizes, stacks) = match image.handler() {
        0 => (PLACES..=PLACES, "on a stack of any size"),
        _ => (1..=PLACES, "on each stack of 1 to 32 places"),
    };
    Ok(match tried(image, rows, sizes.rev(), 1 << interlock.first, 1 << interlock.second)? {
        Tried::All(states) => {
            let states = counted(states, "state");
            Ok(format!("holds in every run {stacks} without swaps: all {states} that the machine can come to were tried"))
        }
        Tried::Part(states) => {
            let states = counted(states, "state");
            Ok(format!("is not decided: it holds in the runs to the first {states} that the machine comes to, and there are more"))
        }
        Tried::Broken { words, label, places } => {
            let words: Vec<String> = words.iter().map(u16::to_string).collect();
            let (words, last, at) = (words.join(","), words.len() - 1, node(plan, label));
            let stack = if places == PLACES {
                String::new()
            } else {
                format!(" on a stack of {}", counted(places, "place"))
            };
            Err(format!(
                "by the words {words}{stack} tick {last} puts out {first} at {at}, and no tick before it since the last home tick puts out \
                 {second}"
            ))
        }
    })
}

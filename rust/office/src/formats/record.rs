//! A run of a chart or of an image, each tick as one record that all formats are written from.

use crate::labels::run::LabelRun;
use crate::labels::table as labels;
use crate::names::Names;
use crate::plan::Plan;
use crate::problem::Problem;
use crate::scenario::{Difference, Played};
use crate::subject::Subject;
use crate::trace::swaps::Swap;
use crate::trace::{table, Happening, Trace};

use super::coverage;
use super::json::Json;

/// Where a run stands: the label and its scheme, and in a chart the node by its number; the stack has scheme and number called of each
/// that is open, the bottom first.
pub struct Place {
    pub label: u8,
    pub scheme: u8,
    pub node: Option<usize>,
    /// The name of the node, or nothing.
    pub name: Option<String>,
    pub open: Vec<(u8, u8)>,
}

/// One tick. The place is that before it, the results are those after it; `server` is the scheme that a call opens, 0 where none is made.
pub struct Step {
    pub swaps: Vec<Swap>,
    pub word: u16,
    pub place: Place,
    pub happening: Happening,
    pub told: String,
    pub server: u8,
    pub code: u8,
    pub mask: u32,
    pub results: [bool; 16],
}

/// The refusal that ended a run, and where it stood.
pub struct Stop {
    pub swaps: Vec<Swap>,
    pub word: u16,
    pub place: Place,
    pub problem: Problem,
}

/// A run, what of the chart or image it can show, and what it never took.
pub struct Record<'a> {
    pub title: String,
    pub kind: &'static str,
    pub names: &'a Names,
    /// The conditions that are tested, and the outputs that some label puts out.
    pub tested: u16,
    pub outputs: u32,
    pub schemes: u8,
    pub places: usize,
    pub steps: Vec<Step>,
    pub stop: Option<Stop>,
    pub differences: Vec<Difference>,
    pub coverage: Json,
}

fn differences(played: Option<&Played>) -> Vec<Difference> {
    played.map_or(Vec::new(), |played| played.differences.clone())
}

impl<'a> Record<'a> {
    /// Of a chart.
    pub fn of_chart(
        title: String,
        plan: &'a Plan,
        trace: &Trace,
        played: Option<&Played>,
    ) -> Result<Record<'a>, Problem> {
        let image = plan.image.as_ref().map_err(Problem::clone)?;
        let place = |stack: &[crate::trace::Opened]| {
            let node = stack[stack.len() - 1].node;
            Place {
                label: plan.label(node).unwrap_or(0) as u8,
                scheme: plan.nodes[node].scheme(),
                node: Some(node),
                name: Some(plan.names.node(node)),
                open: stack.iter().map(|open| (plan.nodes[open.node].scheme(), open.number)).collect(),
            }
        };
        let steps = trace.ticks.iter().map(|tick| Step {
            swaps: tick.swaps.clone(),
            word: tick.word,
            place: place(&tick.stack),
            happening: tick.happening(),
            told: plan.happening(tick),
            server: tick.server,
            code: tick.code,
            mask: tick.mask,
            results: tick.results,
        });
        let stop = trace.stopped.as_ref().map(|stopped| Stop {
            swaps: stopped.swaps.clone(),
            word: stopped.word,
            place: place(&stopped.stack),
            problem: table::problem(plan, trace, stopped),
        });
        Ok(Record {
            title,
            kind: "chart",
            names: &plan.names,
            tested: plan.tested,
            outputs: image.outputs(),
            schemes: plan.schemes(),
            places: trace.places,
            steps: steps.collect(),
            stop,
            differences: differences(played),
            coverage: coverage::of_chart(plan, &trace.coverage),
        })
    }

    /// Of an image, whose labels have the names of a chart's nodes where it was given one.
    pub fn of_image(
        title: String,
        subject: &'a Subject,
        run: &LabelRun,
        played: Option<&Played>,
    ) -> Record<'a> {
        let place = |stack: &[crate::image::Open]| {
            let open = stack[stack.len() - 1];
            Place {
                label: open.label,
                scheme: open.scheme,
                node: None,
                name: subject.name(open.label),
                open: labels::open(stack),
            }
        };
        let steps = run.ticks.iter().map(|tick| Step {
            swaps: tick.swaps.clone(),
            word: tick.word,
            place: place(&tick.stack),
            happening: tick.happening(),
            told: labels::happens(subject, tick),
            server: tick.server,
            code: tick.code,
            mask: tick.mask,
            results: tick.results,
        });
        let stop = run.stopped.as_ref().map(|stopped| Stop {
            swaps: stopped.swaps.clone(),
            word: stopped.word,
            place: place(&stopped.stack),
            problem: labels::problem(subject, run, stopped),
        });
        Record {
            title,
            kind: "image",
            names: subject.names(),
            tested: subject.image.tested(),
            outputs: subject.image.outputs(),
            schemes: subject.image.schemes(),
            places: run.places,
            steps: steps.collect(),
            stop,
            differences: differences(played),
            coverage: coverage::of_image(subject, run),
        }
    }
}

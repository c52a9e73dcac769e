//! A run of an image as one page, in which labels and rows stand for nodes and arcs.

use super::drawing::{place_id, taken};
use super::run::{places, LabelRun, LabelStop, LabelTick};
use super::table::{happens, headings, never_taken, open, problem};
use crate::escape::escaped;
use crate::image::{Open, FUNCTION_CALL};
use crate::page::rows::{chips, with_cells};
use crate::page::{written, Sheet};
use crate::subject::Subject;
use crate::trace::swaps::Swap;
use crate::why::reasons_of;
use crate::wording::word;

/// The whole page, from the drawing as dot printed it.
pub fn page(subject: &Subject, run: &LabelRun, title: &str, summary: &str, svg: &str) -> String {
    let refusal = run.stopped.as_ref().map(|stopped| problem(subject, run, stopped).to_string());
    written(&Sheet {
        title,
        summary,
        svg,
        place: ["label", "Labels"],
        refusal,
        ticks: run.ticks.len() + usize::from(run.stopped.is_some()),
        places: run.places,
        headings: headings().to_vec(),
        rows: ticks(subject, run),
        never: never_taken(subject, run),
        nodes: places(&subject.image)
            .into_iter()
            .map(|(label, scheme)| node(subject, run, label, scheme))
            .collect(),
    })
}

/// A row a tick, and one for the tick that was refused.
fn ticks(subject: &Subject, run: &LabelRun) -> String {
    let made = run.ticks.iter().map(|tick| (tick.swaps.as_slice(), tick.word));
    let reasons = reasons_of(subject, run.places, made);
    let reasons = reasons.unwrap_or_else(|problem| vec![problem.words; run.ticks.len()]);
    let made = run.ticks.iter().zip(&reasons).enumerate();
    let made = made.map(|(number, (tick, why))| made_row(subject, number, tick, why));
    let results = run.ticks.last().map_or([false; 16], |tick| tick.results);
    let stopped = run.stopped.iter().map(|stopped| refused(subject, run.ticks.len(), stopped, &results));
    made.chain(stopped).collect()
}

fn made_row(subject: &Subject, number: usize, tick: &LabelTick, why: &str) -> String {
    let why = format!(" data-why=\"{}\"", escaped(why).replace('\n', "&#10;"));
    let at = At { number, word: tick.word, stack: &tick.stack, lines: taken(subject, tick).join(" ") };
    at.row(subject, &happens(subject, tick), tick.mask, &tick.results, &why)
}

/// The tick that a refusal met: it puts nothing out and leaves the results as they were.
fn refused(subject: &Subject, number: usize, stopped: &LabelStop, results: &[bool; 16]) -> String {
    let swaps = stopped.swaps.iter().map(|swap: &Swap| subject.names().swapped(swap));
    let happens: Vec<String> = swaps.chain([format!("refused ({})", stopped.refusal.number())]).collect();
    let at = At { number, word: stopped.word, stack: &stopped.stack, lines: String::new() };
    at.row(subject, &happens.join("; "), 0, results, " class=\"refused\"")
}

/// Where a tick stands, and the lines that it takes.
struct At<'a> {
    number: usize,
    word: u16,
    stack: &'a [Open],
    lines: String,
}

impl At<'_> {
    fn row(&self, subject: &Subject, happens: &str, mask: u32, results: &[bool; 16], marks: &str) -> String {
        let (names, top) = (subject.names(), self.stack[self.stack.len() - 1]);
        let cells = [
            self.number.to_string(),
            word(self.word),
            chips(&names.conditions(self.word & subject.image.tested())),
            escaped(&names.scheme(top.scheme)),
            escaped(&subject.title(top.label, top.scheme)),
            escaped(happens),
            chips(&names.operations(mask)),
            escaped(&names.open_schemes(&open(self.stack))),
            chips(&names.results(results)),
        ];
        let places: Vec<String> = self.stack.iter().map(|open| place_id(open.label, open.scheme)).collect();
        with_cells(self.number, &places, &self.lines, &(self.serving(subject) + marks), cells)
    }

    /// The open schemes as they are named, where one of them serves another's number.
    fn serving(&self, subject: &Subject) -> String {
        if self.stack.iter().all(|open| open.number == open.scheme) {
            return String::new();
        }
        let served = open(self.stack).into_iter().map(|open| escaped(&subject.names().served(open)));
        format!(" data-serving=\"{}\"", served.collect::<Vec<String>>().join("&#10;"))
    }
}

/// A row a label: how often it was taken.
fn node(subject: &Subject, run: &LabelRun, label: u8, scheme: u8) -> String {
    let kind = match (label, subject.image.label(label).kind) {
        (0 | 1, _) => "End",
        (_, 0) => "plain",
        (_, FUNCTION_CALL) => "function call",
        _ => "call",
    };
    let times = run.times(label, scheme);
    let class = if times == 0 { " class=\"never\"" } else { "" };
    format!(
        "<tr id=\"node-{}\"{class}><td>{}</td><td>{}</td><td>{kind}</td><td>{label}</td><td>{times}</td></tr>\n",
        place_id(label, scheme),
        escaped(&subject.title(label, scheme)),
        escaped(&subject.names().scheme(scheme)),
    )
}

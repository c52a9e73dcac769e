//! A trace written as the scenario by which it is run again.

use crate::columns::width;
use crate::image::Open;
use crate::labels::run::LabelRun;
use crate::names::Names;
use crate::plan::Plan;
use crate::problem::thousands;
use crate::subject::Subject;
use crate::trace::swaps::Swap;
use crate::trace::words::{MOST_WORDS, NO_CONDITION};
use crate::trace::Trace;
use crate::wording::word;

use super::expected::place;

/// Steps wider than this push their comment out.
const WIDEST: usize = 80;

/// One line of a scenario: a word, and what is expected of its tick.
#[derive(PartialEq, Eq)]
struct Line<'a> {
    word: u16,
    swaps: &'a [Swap],
    expected: String,
}

/// The scenario of a trace, with a comment on top, and with what its ticks showed as expected where that is asked for. One that would be
/// too long is refused.
pub fn written(plan: &Plan, trace: &Trace, comment: &str, expecting: bool) -> Result<String, String> {
    let script = Script { names: &plan.names, tested: plan.tested, places: trace.places, expecting };
    let made = trace.ticks.iter().map(|tick| {
        let shown = shown(Some((plan, tick.node())), &plan.names, tick.mask);
        script.line(tick.word, &tick.swaps, shown)
    });
    let stopped = trace.stopped.iter().map(|stopped| {
        script.line(stopped.word, &stopped.swaps, format!("refusal {}", stopped.refusal.number()))
    });
    script.text(made.chain(stopped).collect(), comment)
}

/// The scenario of an image's run, likewise: without a chart's names by numbers, and then no node is expected.
pub fn written_of_image(
    subject: &Subject,
    run: &LabelRun,
    comment: &str,
    expecting: bool,
) -> Result<String, String> {
    let names = subject.names();
    let script = Script { names, tested: subject.image.tested(), places: run.places, expecting };
    let node = |Open { label, scheme, .. }: Open| {
        subject.plan().map(|plan| (plan, plan.marking.node(label, scheme)))
    };
    let made = run
        .ticks
        .iter()
        .map(|tick| script.line(tick.word, &tick.swaps, shown(node(tick.open()), names, tick.mask)));
    let stopped = run.stopped.iter().map(|stopped| {
        script.line(stopped.word, &stopped.swaps, format!("refusal {}", stopped.refusal.number()))
    });
    script.text(made.chain(stopped).collect(), comment)
}

/// What a scenario is written by: names, the conditions that are tested, the places of the stack, and whether what was seen is expected.
struct Script<'a> {
    names: &'a Names,
    tested: u16,
    places: usize,
    expecting: bool,
}

impl Script<'_> {
    fn line<'l>(&self, word: u16, swaps: &'l [Swap], shown: String) -> Line<'l> {
        let expected = if self.expecting { format!("; expect {shown}") } else { String::new() };
        Line { word, swaps, expected }
    }

    fn text(&self, lines: Vec<Line>, comment: &str) -> Result<String, String> {
        if lines.len() > MOST_WORDS {
            return Err(format!("a scenario has at most {} ticks", thousands(MOST_WORDS)));
        }
        let goes_on = |line: &Line, next: &Line| {
            next.swaps.is_empty() && (line.word, &line.expected) == (next.word, &next.expected)
        };
        let (mut steps, mut made) = (Vec::new(), 0);
        for alike in lines.chunk_by(goes_on) {
            let (word, last) = (self.word(alike[0].word), made + alike.len() - 1);
            let (times, ticks) = match alike.len() {
                1 => (String::new(), format!("tick {made}")),
                times => (format!(" * {times}"), format!("ticks {made} to {last}")),
            };
            steps.push((alike[0].swaps, format!("{word}{times}{}", alike[0].expected), ticks));
            made = last + 1;
        }
        let widest =
            steps.iter().map(|(_, step, _)| width(step)).filter(|wide| *wide <= WIDEST).max().unwrap_or(0);
        let mut text = format!("# {comment}\nplaces {}\n\n", self.places);
        for (swaps, step, ticks) in steps {
            let name = |number: usize| self.names.scheme(number as u8);
            text.extend(
                swaps.iter().map(|swap| format!("swap {}={}\n", name(swap.number), name(swap.scheme))),
            );
            let room = " ".repeat(widest.saturating_sub(width(&step)));
            text.push_str(&format!("{step}{room}  # {ticks}\n"));
        }
        Ok(text)
    }

    /// A word by the names of its conditions; where one has no name and is asked by no node, by its number.
    fn word(&self, bits: u16) -> String {
        let ones: Vec<u8> = (0..16).filter(|number| bits >> number & 1 == 1).collect();
        let is_known =
            |number: &u8| self.tested >> number & 1 == 1 || self.names.conditions.contains_key(number);
        match ones.is_empty() {
            true => NO_CONDITION.to_string(),
            false if ones.iter().all(is_known) => ones
                .into_iter()
                .map(|number| self.names.condition(number))
                .collect::<Vec<String>>()
                .join(" + "),
            false => word(bits),
        }
    }
}

/// What a tick showed: its node, where there is a chart, and its outputs.
fn shown(node: Option<(&Plan, usize)>, names: &Names, mask: u32) -> String {
    let outputs = match names.operations(mask) {
        outputs if outputs.is_empty() => "nothing".to_string(),
        outputs => format!("only {}", outputs.join(", ")),
    };
    node.map_or(outputs.clone(), |(plan, node)| format!("node {}, {outputs}", place(node, Some(plan))))
}

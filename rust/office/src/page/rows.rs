//! The tables of a page: its ticks and its nodes.

use crate::draw::{arc_id, call_id, node_id};
use crate::escape::escaped;
use crate::plan::Plan;
use crate::trace::{Happening, Opened, Stopped, Tick, Trace};
use crate::why::reasons;
use crate::wording::{kind, word};

/// A row a tick, with the identifiers of what it lights, and one for the tick that was refused.
pub fn ticks(plan: &Plan, trace: &Trace) -> String {
    let reasons = reasons(plan, trace).unwrap_or_else(|problem| vec![problem.words; trace.ticks.len()]);
    let made = trace.ticks.iter().zip(&reasons).enumerate();
    let made = made.map(|(number, (tick, why))| row(plan, number, tick, why));
    let results = trace.ticks.last().map_or([false; 16], |tick| tick.results);
    let stopped = trace.stopped.iter().map(|stopped| refused(plan, trace.ticks.len(), stopped, results));
    made.chain(stopped).collect()
}

/// The tick that a refusal met, with the swaps before it: it stands at its node, puts nothing out and leaves the results and all
/// else as they were.
fn refused(plan: &Plan, number: usize, stopped: &Stopped, results: [bool; 16]) -> String {
    let node = stopped.stack[stopped.stack.len() - 1].node;
    let swaps = stopped.swaps.iter().map(|swap| plan.swapped(swap));
    let happens: Vec<String> = swaps.chain([format!("refused ({})", stopped.refusal.number())]).collect();
    let cells = [
        number.to_string(),
        word(stopped.word),
        chips(&plan.conditions(stopped.word)),
        escaped(&plan.scheme_of(node)),
        escaped(&plan.node_title(node)),
        escaped(&happens.join("; ")),
        chips(&[]),
        escaped(&plan.open_schemes(&stopped.stack)),
        chips(&plan.results(&results)),
    ];
    table_row(plan, number, &stopped.stack, "", cells, " class=\"refused\"")
}

fn row(plan: &Plan, number: usize, tick: &Tick, why: &str) -> String {
    let cells = [
        number.to_string(),
        word(tick.word),
        chips(&plan.conditions(tick.word)),
        escaped(&plan.scheme_of(tick.node())),
        escaped(&plan.node_title(tick.node())),
        escaped(&plan.happening(tick)),
        chips(&plan.operations(tick.mask)),
        escaped(&plan.open_schemes(&tick.stack)),
        chips(&plan.results(&tick.results)),
    ];
    let why = format!(" data-why=\"{}\"", escaped(why).replace('\n', "&#10;"));
    table_row(plan, number, &tick.stack, &lines(plan, tick).join(" "), cells, &why)
}

fn table_row(
    plan: &Plan,
    number: usize,
    stack: &[Opened],
    lines: &str,
    cells: [String; 9],
    marks: &str,
) -> String {
    let open: Vec<String> = stack.iter().map(|opened| node_id(opened.node)).collect();
    with_cells(number, &open, lines, &(serving(plan, stack) + marks), cells)
}

/// The row of a tick: the identifiers of what is open and of the lines that it takes, other marks, and its cells.
pub fn with_cells(number: usize, open: &[String], lines: &str, marks: &str, cells: [String; 9]) -> String {
    let cells: String = cells.iter().map(|cell| format!("<td>{cell}</td>")).collect();
    let open = open.join(" ");
    format!("<tr id=\"tick-{number}\" data-stack=\"{open}\" data-lines=\"{lines}\"{marks}>{cells}</tr>\n")
}

/// The open schemes as they are named, where one of them serves another's number; elsewhere each is that of its node.
fn serving(plan: &Plan, stack: &[Opened]) -> String {
    if stack.iter().all(|opened| opened.number == plan.nodes[opened.node].scheme()) {
        return String::new();
    }
    let names: Vec<String> = stack.iter().map(|opened| escaped(&plan.open_scheme(opened))).collect();
    format!(" data-serving=\"{}\"", names.join("&#10;"))
}

/// The arcs that a tick takes, and its call.
fn lines(plan: &Plan, tick: &Tick) -> Vec<String> {
    let mut lines: Vec<String> = tick.arcs.iter().map(|arc| arc_id(*arc)).collect();
    if let Happening::Call(_) = tick.happening() {
        lines.push(call_id(plan, tick.node(), tick.server));
    }
    lines
}

/// Names, each in a frame of its own; a dash for none.
pub fn chips(names: &[String]) -> String {
    if names.is_empty() {
        return "<span class=\"none\">\u{2013}</span>".to_string();
    }
    names.iter().map(|name| format!("<span class=\"chip\">{}</span> ", escaped(name))).collect()
}

/// A row a node: how often it was taken.
pub fn nodes(plan: &Plan, trace: &Trace) -> String {
    (0..plan.nodes.len()).map(|at| node(plan, trace, at)).collect()
}

fn node(plan: &Plan, trace: &Trace, at: usize) -> String {
    let label = plan.label(at).map_or("\u{2013}".to_string(), |label| label.to_string());
    let times = trace.coverage.times(at);
    let class = if times == 0 { " class=\"never\"" } else { "" };
    format!(
        "<tr id=\"node-{}\"{class}><td>{}</td><td>{}</td><td>{}</td><td>{label}</td><td>{times}</td></tr>\n",
        node_id(at),
        escaped(&plan.names.node(at)),
        escaped(&plan.scheme_of(at)),
        kind(&plan.nodes[at]),
    )
}

//! An image as graphviz text: a cluster a scheme, its labels, its rows as lines between them, and dashed calls. Where a run is given, what
//! it took is bold and what it never took is grey.

use super::run::{places, LabelRun, LabelTick};
use super::words::{asked, row};
use crate::draw::labels::{broken as names_in_lines, in_table, small};
use crate::draw::{broken, frame, marks, quoted, titled_svg, COMMON};
use crate::escape::escaped;
use crate::image::{end_of, Row, FUNCTION_CALL};
use crate::notation::WHEN_FULL;
use crate::subject::Subject;
use crate::trace::Happening;

/// The identifier of a label of a scheme in drawing and page; the End of each scheme has its own.
pub fn place_id(label: u8, scheme: u8) -> String {
    match label {
        0 | 1 => format!("e{scheme}"),
        _ => format!("l{label}"),
    }
}

/// The identifier of the place where a scheme begins.
pub fn begin_id(scheme: u8) -> String {
    format!("b{scheme}")
}

/// The identifier of a row in drawing and page.
pub fn row_id(number: usize) -> String {
    format!("r{number}")
}

/// The identifier of the call of a label, by the scheme that serves it.
pub fn call_id(subject: &Subject, label: u8, server: u8) -> String {
    match server == subject.image.called(label) {
        true => format!("l{label}_call"),
        false => format!("l{label}_call_{server}"),
    }
}

/// The drawing as SVG with titles in the shop's words.
pub fn svg(subject: &Subject, drawing: &str) -> Result<String, String> {
    titled_svg(drawing, |id, title| titled(subject, id, title))
}

/// A label, a row, a call or a scheme by its identifier.
pub fn titled(subject: &Subject, id: &str, title: &str) -> Option<String> {
    let scheme = |number: u8| subject.names().scheme(number);
    let numbered = |kind: char| id.strip_prefix(kind)?.parse().ok();
    if let Some(number) = title.strip_prefix("cluster_") {
        return Some(format!("scheme {}", scheme(number.parse().ok()?)));
    }
    if let Some(own) = numbered('r').and_then(|number: u16| subject.image.rows().nth(usize::from(number))) {
        return Some(row(subject, &own));
    }
    if let Some(number) = numbered('e') {
        return Some(format!("End of {}", scheme(number as u8)));
    }
    if let Some(number) = numbered('b') {
        return Some(format!("where {} begins", scheme(number as u8)));
    }
    let (label, rest) = id.strip_prefix('l')?.split_once('_').unwrap_or((&id[1..], ""));
    let label = label.parse().ok().filter(|label| usize::from(*label) < subject.image.labels())?;
    let own = subject.image.label(label);
    Some(match rest.strip_prefix("call") {
        None => format!("label {} of {}", subject.title(label, own.owner), scheme(own.owner)),
        Some("") => format!("call of {} at label {}", scheme(own.called), subject.title(label, own.owner)),
        Some(server) => format!(
            "call of {} at label {}, served by {}",
            scheme(own.called),
            subject.title(label, own.owner),
            scheme(server.strip_prefix('_')?.parse().ok()?)
        ),
    })
}

/// The whole drawing with a caption, which may be empty.
pub fn drawing(subject: &Subject, run: Option<&LabelRun>, caption: &str) -> String {
    let image = &subject.image;
    let mut text = format!("digraph image {{\n{COMMON}");
    if !caption.is_empty() {
        text.push_str(&format!("    label={};\n", quoted(&broken(caption))));
    }
    for scheme in 1..=image.schemes() {
        text.push_str(&frame(scheme, &subject.names().scheme(scheme)));
        text.push_str(&begin(subject, scheme));
        let own = places(image).into_iter().filter(|(_, own)| *own == scheme);
        text.extend(own.map(|(label, scheme)| place(subject, run, label, scheme)));
        text.push_str("    }\n");
        text.push_str(&format!(
            "    {} -> {} [class=\"arc\"];\n",
            begin_id(scheme),
            place_id(image.entry(scheme), scheme)
        ));
    }
    text.extend(image.rows().enumerate().map(|(number, own)| row_line(subject, run, number, &own)));
    text.extend((2..image.labels()).map(|label| calls(subject, run, label as u8)));
    text + "}\n"
}

/// Where a scheme begins, which takes no tick.
fn begin(subject: &Subject, scheme: u8) -> String {
    let handler = match subject.image.handler() == scheme {
        true => format!(", xlabel=\"{}\"", WHEN_FULL),
        false => String::new(),
    };
    let id = begin_id(scheme);
    format!(
        "        {id} [id=\"{id}\", shape=point, width=0.1, fillcolor=\"#37404d\", label=\"\"{handler}];\n"
    )
}

/// A label, or the End of a scheme.
fn place(subject: &Subject, run: Option<&LabelRun>, label: u8, scheme: u8) -> String {
    let id = place_id(label, scheme);
    let marks = marks(&id, "", run.map(|run| run.times(label, scheme) > 0));
    let look = match (label, subject.image.label(label).kind) {
        (0 | 1, _) => ", style=\"filled,rounded\", fillcolor=\"#e4e8ee\"",
        (_, FUNCTION_CALL) => ", shape=hexagon, fillcolor=\"#e6f4ea\", margin=\"0.02,0.04\"",
        _ => "",
    };
    format!("        {id} [{marks}{look}, label={}];\n", in_table(&lines(subject, label)))
}

/// What is written in a label, as graphviz writes it: its name, outputs, the result that it writes and the scheme that it calls.
pub fn lines(subject: &Subject, label: u8) -> Vec<String> {
    if label < 2 {
        return vec!["<B>End</B>".to_string(), small(&format!("label {label}"))];
    }
    let (own, names) = (subject.image.label(label), subject.names());
    let mut lines = vec![format!("<B>{}</B>", escaped(&subject.title(label, own.owner)))];
    lines.extend(names_in_lines(&names.operations(own.mask)).iter().map(|line| escaped(line)));
    if own.result != 0 {
        lines.push(format!("result := {}", own.result - 1));
    }
    let called = escaped(&names.scheme(own.called));
    match own.kind {
        0 => {}
        FUNCTION_CALL => lines.push(format!("{called} ?")),
        _ => lines.push(format!("call {called}")),
    }
    lines
}

/// A row from its label to the next, with what it asks for.
fn row_line(subject: &Subject, run: Option<&LabelRun>, number: usize, own: &Row) -> String {
    let scheme = subject.image.label(own.from).owner;
    let marks = marks(&row_id(number), "arc", run.map(|run| run.row_taken(number)));
    let asked = asked(subject.names(), own.care, own.values, own.result).join("\n");
    let label =
        if asked.is_empty() { String::new() } else { format!(", label={}", quoted(&format!(" {asked} "))) };
    let next = if own.next < 2 { place_id(end_of(scheme), scheme) } else { place_id(own.next, scheme) };
    format!("    l{} -> {next} [{marks}{label}];\n", own.from)
}

/// The dashed lines from a call: to where the scheme called begins, and to where others that served it do.
fn calls(subject: &Subject, run: Option<&LabelRun>, label: u8) -> String {
    let scheme = subject.image.called(label);
    if scheme == 0 {
        return String::new();
    }
    let others = run.into_iter().flat_map(|run| run.servers(label)).filter(|server| *server != scheme);
    let line = |server: u8| {
        let taken = run.map(|run| run.call_taken(label, server));
        let marks = marks(&call_id(subject, label, server), "call", taken);
        let name = match server == scheme {
            true => String::new(),
            false => format!(", label={}", quoted(&format!(" for {} ", subject.names().scheme(scheme)))),
        };
        format!("    l{label} -> {} [{marks}{name}];\n", begin_id(server))
    };
    [scheme].into_iter().chain(others).map(line).collect()
}

/// The identifiers of the row and the call that a tick takes.
pub fn taken(subject: &Subject, tick: &LabelTick) -> Vec<String> {
    let row = tick.row.iter().map(|row| row_id(usize::from(*row)));
    let call = match tick.happening() {
        Happening::Call(_) => Some(call_id(subject, tick.open().label, tick.server)),
        _ => None,
    };
    row.chain(call).collect()
}

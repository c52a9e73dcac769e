//! An image as it is drawn: where each scheme begins, its labels and its End, the rows between them, and the calls. All rows from one label
//! to another make one line, and on the way what they ask for is written, each row on lines of its own.

use std::collections::BTreeMap;

use office::escape::escaped;
use office::image::{end_of, Row, FUNCTION_CALL};
use office::labels::drawing::{begin_id, call_id, lines, place_id, titled};
use office::labels::run::places;
use office::labels::words;
use office::notation::WHEN_FULL;
use office::subject::Subject;

use super::shapes::{Form, Shape};
use super::{Boxed, Frame, Kind, Line, Sheet};

/// The longest line of what rows ask for, in characters, and the most rows that are written out.
const LONGEST: usize = 34;
const MOST_ROWS: usize = 6;

/// The identifiers of the line that a row takes: to what is asked, that itself, and from there on; where nothing is asked the first is all.
pub fn way(row: &Row) -> [String; 3] {
    let line = format!("l{}_{}", row.from, row.next);
    [line.clone(), format!("{line}_asked"), format!("{line}_on")]
}

/// The identifier of the line from where a scheme begins.
pub fn entry_id(scheme: u8) -> String {
    format!("{}_0", begin_id(scheme))
}

pub fn sheet(subject: &Subject) -> Sheet {
    let mut sheet = Sheet { frames: Vec::new(), boxes: Vec::new() };
    let image = &subject.image;
    let schemes = 1..=image.schemes();
    // where schemes begin stands first, then all labels, then what rows ask for
    let all = places(image);
    let first = usize::from(image.schemes());
    let at: BTreeMap<(u8, u8), usize> = all.iter().enumerate().map(|(at, own)| (*own, first + at)).collect();
    let reached = |label: u8, scheme: u8| match label {
        0 | 1 => at[&(end_of(scheme), scheme)],
        _ => at[&(label, scheme)],
    };
    for scheme in schemes.clone() {
        let line = Line {
            id: entry_id(scheme),
            to: reached(image.entry(scheme), scheme),
            title: format!("{} begins", subject.names().scheme(scheme)),
            value: None,
        };
        sheet.boxes.push(entry(subject, scheme, line));
    }
    for (label, scheme) in &all {
        sheet.boxes.push(place(subject, *label, *scheme));
    }
    let mut lines: BTreeMap<(u8, u8), Vec<Row>> = BTreeMap::new();
    image.rows().for_each(|row| lines.entry((row.from, row.next)).or_default().push(row));
    let mut asked_in = vec![Vec::new(); first + 1];
    for ((from, next), rows) in lines {
        let scheme = image.label(from).owner;
        let (from, to) = (reached(from, scheme), reached(next, scheme));
        let [id, asked, on] = way(&rows[0]);
        let title = titles(subject, &rows);
        let texts = texts(subject, &rows);
        if texts.is_empty() {
            sheet.boxes[from].lines.push(Line { id, to, title, value: None });
            continue;
        }
        let middle = sheet.boxes.len();
        asked_in[usize::from(scheme)].push(middle);
        sheet.boxes[from].lines.push(Line { id, to: middle, title: title.clone(), value: None });
        sheet.boxes.push(Boxed {
            id: asked,
            kind: Kind::Asked,
            shape: Shape::of(Form::Bare, &texts),
            title: title.clone(),
            lines: vec![Line { id: on, to, title, value: None }],
            call: None,
        });
    }
    for scheme in schemes {
        let own = all.iter().filter(|(_, own)| *own == scheme).map(|own| at[own]);
        let begin = usize::from(scheme) - 1;
        let asked = asked_in[usize::from(scheme)].iter().copied();
        let title = format!("scheme {}", subject.names().scheme(scheme));
        let boxes = std::iter::once(begin).chain(own).chain(asked).collect();
        sheet.frames.push(Frame { title, boxes });
    }
    sheet
}

/// Where a scheme begins, which takes no tick.
fn entry(subject: &Subject, scheme: u8, line: Line) -> Boxed {
    let mut lines = vec!["Begin".to_string()];
    lines.extend((subject.image.handler() == scheme).then(|| WHEN_FULL.to_string()));
    let id = begin_id(scheme);
    let title = titled(subject, &id, "").unwrap_or_default();
    Boxed {
        id,
        kind: Kind::Entry,
        shape: Shape::of(Form::Rounded, &lines),
        title,
        lines: vec![line],
        call: None,
    }
}

/// A label of a scheme, or its End.
fn place(subject: &Subject, label: u8, scheme: u8) -> Boxed {
    let own = subject.image.label(label);
    let (kind, form) = match (label, own.kind) {
        (0 | 1, _) => (Kind::EdgeOfScheme, Form::Rounded),
        (_, FUNCTION_CALL) => (Kind::Function, Form::Hexagon),
        _ => (Kind::Operation, Form::Rectangle),
    };
    let call = (own.called != 0).then(|| {
        let id = call_id(subject, label, own.called);
        let title = titled(subject, &id, "").unwrap_or_default();
        Line { id, to: usize::from(own.called) - 1, title, value: None }
    });
    let id = place_id(label, scheme);
    let title = titled(subject, &id, "").unwrap_or_default();
    Boxed { id, kind, shape: Shape::of(form, &lines(subject, label)), title, lines: Vec::new(), call }
}

/// What some rows ask for, each on lines of its own with `or` between them, with the marks of graphviz; nothing where nothing is asked.
fn texts(subject: &Subject, rows: &[Row]) -> Vec<String> {
    let asked = |row: &Row| words::asked(subject.names(), row.care, row.values, row.result);
    if let [row] = rows {
        return wrapped(&asked(row));
    }
    let mut texts = Vec::new();
    for (at, row) in rows.iter().take(MOST_ROWS).enumerate() {
        let mut lines = match asked(row) {
            parts if parts.is_empty() => vec!["always".to_string()],
            parts => wrapped(&parts),
        };
        if at > 0 {
            lines[0] = format!("or {}", lines[0]);
        }
        texts.extend(lines);
    }
    texts.extend((rows.len() > MOST_ROWS).then(|| format!("or by {} more rows", rows.len() - MOST_ROWS)));
    texts
}

/// Parts with `and` between them, in lines that are not too long.
fn wrapped(parts: &[String]) -> Vec<String> {
    let mut lines: Vec<String> = Vec::new();
    for part in parts {
        match lines.last_mut() {
            Some(line) if line.chars().count() + 5 + part.chars().count() <= LONGEST => {
                line.push_str(" and ");
                line.push_str(part);
            }
            Some(_) => lines.push(format!("and {part}")),
            None => lines.push(part.clone()),
        }
    }
    lines.iter().map(|line| escaped(line)).collect()
}

/// The rows in words.
fn titles(subject: &Subject, rows: &[Row]) -> String {
    let told = rows.iter().take(MOST_ROWS).map(|row| words::row(subject, row));
    let more = (rows.len() > MOST_ROWS).then(|| format!("and {} more rows", rows.len() - MOST_ROWS));
    told.chain(more).collect::<Vec<String>>().join("\n")
}

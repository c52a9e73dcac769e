//! Rows of an image written anew, by lines that a person writes. The library says whether what comes of them is an image.

mod lines;

use std::collections::HashMap;

use fairleadow::{Library, Proved, Refusal, ROWS};

use crate::explain;
use crate::image::{Image, Row};
use crate::kind::Kind;
use crate::labels::words::{asks, row};
use crate::problem::{counted, Problem};
use crate::subject::Subject;

use lines::{Change, Line, Lines};

/// An image with its patch, and what each line did.
#[derive(Debug)]
pub struct Patched {
    pub image: Image,
    pub added: usize,
    pub changed: usize,
    pub removed: usize,
    /// Lines that asked for what was there already.
    pub kept: usize,
}

/// The image with all lines of a patch, or which line is refused.
pub fn patched(subject: &Subject, bytes: &[u8]) -> Result<Patched, Problem> {
    let lines = Lines::read(subject, bytes)?;
    let told = |problem: Problem| problem.excerpt(lines.text.as_bytes());
    twice(subject, &lines).map_err(told)?;
    let whole = applied(subject, &lines.lines).map_err(told)?;
    let text = subject.image.with_rows(&whole.rows);
    match Proved.check_image(&text) {
        Ok(_) => Ok(whole.patched(Image::accepted(text))),
        Err(refusal) => Err(told(refused(subject, &lines.lines, refusal))),
    }
}

/// Two lines about one row, of which only one can be meant.
fn twice(subject: &Subject, lines: &Lines) -> Result<(), Problem> {
    let mut known = HashMap::new();
    for line in &lines.lines {
        let Row { from, care, values, result, .. } = line.row;
        if let Some(first) = known.insert((from, care, values, result), line.number) {
            let asked = asks(subject, &line.row);
            let what = format!("the row '{asked}' has a line already (line {first})");
            return Err(Problem::at(line.number, line.from, what).advice("one line for each row"));
        }
    }
    Ok(())
}

/// Rows with the lines of a patch, and how many lines did what.
#[derive(Default)]
struct Rows {
    rows: Vec<Row>,
    added: usize,
    changed: usize,
    removed: usize,
    kept: usize,
}

impl Rows {
    fn patched(self, image: Image) -> Patched {
        let Rows { added, changed, removed, kept, .. } = self;
        Patched { image, added, changed, removed, kept }
    }

    /// A row in its place: of one that asks for the same it has the place, and else it is the last of its label. Of several that ask for
    /// the same the last is taken by ticks.
    fn set(&mut self, row: Row) {
        match self.rows.iter().rposition(|own| own.asks_as(&row)) {
            Some(at) if self.rows[at] == row => self.kept += 1,
            Some(at) => {
                self.rows[at] = row;
                self.changed += 1;
            }
            None => {
                let behind = self.rows.iter().rposition(|own| own.from <= row.from).map_or(0, |at| at + 1);
                self.rows.insert(behind, row);
                self.added += 1;
            }
        }
    }

    /// All rows that ask for this; whether there was one.
    fn remove(&mut self, row: &Row) -> bool {
        let before = self.rows.len();
        self.rows.retain(|own| !own.asks_as(row));
        self.removed += before - self.rows.len();
        self.rows.len() < before
    }
}

/// The rows of the image with these lines.
fn applied(subject: &Subject, lines: &[Line]) -> Result<Rows, Problem> {
    let mut rows = Rows { rows: subject.image.rows().collect(), ..Rows::default() };
    for line in lines {
        match line.change {
            Change::Set { .. } => rows.set(line.row),
            Change::Remove if rows.remove(&line.row) => {}
            Change::Remove => return Err(no_such_row(subject, line)),
        }
    }
    Ok(rows)
}

/// What to look for where a row does not fit.
const LABELS: &str = "the labels and rows of the image, which `fairleadow show` lists";

/// How many rows of a label are named where another is not found.
const NAMED: usize = 4;

fn no_such_row(subject: &Subject, line: &Line) -> Problem {
    let own: Vec<String> =
        subject.image.rows_of(line.row.from).map(|own| format!("'{}'", row(subject, &own))).collect();
    let (label, asked) = (subject.named_label(line.row.from), asks(subject, &line.row));
    let advice = match own.len() {
        0 => format!("{label} has no rows"),
        count if count > NAMED => format!("the {count} rows of {label}, which `fairleadow show` lists"),
        _ => format!("the rows of {label}: {}", own.join(", ")),
    };
    Problem::at(line.number, line.from, format!("there is no row '{asked}' to remove")).advice(advice)
}

/// The first line with which the library refuses the image, and why.
fn refused(subject: &Subject, lines: &[Line], whole: Refusal) -> Problem {
    for count in 1..=lines.len() {
        let Ok(rows) = applied(subject, &lines[..count]) else { break };
        let text = subject.image.with_rows(&rows.rows);
        if let Err(refusal) = Proved.check_image(&text) {
            let line = &lines[count - 1];
            let told = match refusal {
                Refusal::BadContent(_) => fault(subject, line),
                _ if rows.rows.len() > ROWS => {
                    let has = counted(rows.rows.len(), "row");
                    Some((line.from, format!("with this row the image has {has}, and {ROWS} are the most")))
                }
                _ => None,
            };
            let told = told.map(|(column, what)| Problem::at(line.number, column, what).advice(LABELS));
            let none = || {
                Problem::internal("the library turns a line of the patch back, and no reason for it is found")
            };
            return told.unwrap_or_else(none).refused(refusal);
        }
    }
    explain::refusal(&subject.image.text, Kind::Image, whole)
}

/// What rule 13 has against the row of a line, and the column of the word that is at fault.
fn fault(subject: &Subject, line: &Line) -> Option<(usize, String)> {
    let (image, row) = (&subject.image, line.row);
    let highest = format!("the highest label is {}", image.labels() - 1);
    let there_is = |label: u8| usize::from(label) < image.labels();
    let Change::Set { to, result } = line.change else { return None };
    if row.from < 2 {
        return Some((
            line.from,
            format!("label {} is an End, and a row leaves label 2 or one above it", row.from),
        ));
    }
    if !there_is(row.from) {
        return Some((line.from, format!("there is no label {}: {highest}", row.from)));
    }
    let (label, own) = (subject.named_label(row.from), image.label(row.from));
    if let Some(column) = result.filter(|_| own.kind != crate::image::FUNCTION_CALL) {
        return Some((column, format!("{label} calls no function, so its rows ask for no result")));
    }
    if !there_is(row.next) {
        return Some((to, format!("there is no label {}: {highest}", row.next)));
    }
    let (scheme, next) = (subject.scheme(own.owner), subject.named_label(row.next));
    let whose = match row.next {
        0 => "is the End of scheme 1".to_string(),
        1 => "is the End of every scheme but 1".to_string(),
        _ => format!("belongs to {}", subject.scheme(image.label(row.next).owner)),
    };
    Some((to, format!("{next} {whose}, and {label} belongs to {scheme}; a row leads to a label of its own scheme, or to its End")))
}

//! A trace as one page: the drawing, the ticks, and a slider and keys that step through them. Nothing is loaded: style,
//! script and drawing stand in the page.

pub mod rows;

use crate::escape::escaped;
use crate::plan::Plan;
use crate::trace::table::{never_taken, problem, HEADINGS};
use crate::trace::Trace;

const STYLE: &str = include_str!("page/page.css");
const SCRIPT: &str = include_str!("page/page.js");
const BODY: &str = include_str!("page/page.html");

/// What a page is made of: of a chart by its nodes, or of an image by its labels.
pub struct Sheet<'a> {
    pub title: &'a str,
    pub summary: &'a str,
    /// As dot printed it.
    pub svg: &'a str,
    /// What a tick stands at, and the heading of the list of all of them.
    pub place: [&'static str; 2],
    pub refusal: Option<String>,
    /// How many rows the table of ticks has.
    pub ticks: usize,
    pub places: usize,
    pub headings: Vec<String>,
    pub rows: String,
    /// How much was never taken, then what.
    pub never: Vec<String>,
    pub nodes: String,
}

/// The whole page of a chart, from the drawing as dot printed it.
pub fn page(plan: &Plan, trace: &Trace, title: &str, summary: &str, svg: &str) -> String {
    let refusal = trace.stopped.as_ref().map(|stopped| problem(plan, trace, stopped).to_string());
    written(&Sheet {
        title,
        summary,
        svg,
        place: ["node", "Nodes"],
        refusal,
        ticks: trace.ticks.len() + usize::from(trace.stopped.is_some()),
        places: trace.places,
        headings: HEADINGS.map(str::to_string).to_vec(),
        rows: rows::ticks(plan, trace),
        never: never_taken(plan, trace),
        nodes: rows::nodes(plan, trace),
    })
}

/// The whole page.
pub fn written(sheet: &Sheet) -> String {
    let heading = |heading: &String| format!("<th scope=\"col\">{heading}</th>");
    let refusal = |words: &String| format!("<p id=\"refusal\">{}</p>", escaped(words));
    let parts = [
        ("STYLE", STYLE.to_string()),
        ("SCRIPT", SCRIPT.to_string()),
        ("TITLE", escaped(sheet.title)),
        ("SUMMARY", escaped(sheet.summary)),
        ("REFUSAL", sheet.refusal.as_ref().map(refusal).unwrap_or_default()),
        ("LAST", (sheet.ticks - 1).to_string()),
        ("PLACES", sheet.places.to_string()),
        ("PLACE", sheet.place[0].to_string()),
        ("DRAWING", inline(sheet.svg).to_string()),
        ("HEADINGS", sheet.headings.iter().map(heading).collect()),
        ("TICKS", sheet.rows.clone()),
        ("NEVER", never(&sheet.never)),
        ("NODES_HEADING", sheet.place[1].to_string()),
        ("NODES", sheet.nodes.clone()),
    ];
    filled(BODY, &parts)
}

/// The body with each part where its name stands between brackets, all in one pass: a part is never searched.
fn filled(body: &str, parts: &[(&str, String)]) -> String {
    let mut pieces = body.split("[[");
    let mut page = pieces.next().unwrap_or("").to_string();
    for piece in pieces {
        let (name, rest) = piece.split_once("]]").expect("a name and its bracket");
        let part = parts.iter().find(|part| part.0 == name).expect("a part of this name");
        page.push_str(&part.1);
        page.push_str(rest);
    }
    page
}

/// The drawing without what stands before its element in a file.
fn inline(svg: &str) -> &str {
    svg.find("<svg").map_or("", |start| &svg[start..])
}

/// What was never taken: how many, and a list.
fn never(lines: &[String]) -> String {
    let mut text = format!("<p id=\"never\">{}</p>", escaped(&lines[0]));
    if lines.len() > 1 {
        let items = lines[1..].iter().map(|line| format!("<li>{}</li>", escaped(line.trim())));
        text.push_str(&format!("<ul>{}</ul>", items.collect::<String>()));
    }
    text
}

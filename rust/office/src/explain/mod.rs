//! A refusal of the library in words. The library's answer decides; here the reason for that very answer is found, by the rule of its
//! number, and where it names a line, on that line. Where there is none, an internal error is told in its place.

mod circles;
pub mod image;
mod image_fields;
mod lines;
mod nodes;
mod paths;
mod rows;
pub mod rules;
mod uneven;
mod voice;
pub mod warnings;

use fairleadow::{Library, Proved, Refusal, CHART_TEXT, IMAGE_TEXT, LINE, NODES, RECORD};

use crate::calls::Calls;
use crate::chart::{self, Node};
use crate::kind::Kind;
use crate::marking::handler;
use crate::names::Names;
use crate::places;
use crate::problem::{counted, thousands, Problem};

use voice::Voice;

/// Why the library refuses this text as a chart or as an image, or a run of it.
pub fn refusal(text: &[u8], asked: Kind, refusal: Refusal) -> Problem {
    held(reason(text, asked, refusal), refusal, refusal.frame().map(|frame| frame + 1)).excerpt(text)
}

fn reason(text: &[u8], asked: Kind, refusal: Refusal) -> Option<Problem> {
    match refusal {
        Refusal::BadLength if asked == Kind::Image => lines::length(text, asked, IMAGE_TEXT),
        Refusal::BadLength => lines::length(text, asked, CHART_TEXT),
        Refusal::BadCharacter(line) => lines::character_of(text, line),
        Refusal::BadSum(line) => lines::sum(text, line),
        Refusal::BadHeader => image::header(&frames(text)?),
        Refusal::StrayFrame(line) => image::place(&frames(text)?, line),
        Refusal::BadContent(line) => image_fields::field(&frames(text)?, line),
        Refusal::Full { ticks } => Some(full_stack(ticks, chart_of(text, asked).map(|nodes| (text, nodes)))),
        Refusal::Uneven => uneven::label(&frames(text)?),
        _ if is_of_records(refusal) => of_records(&frames(text)?, refusal, Voice::Lines),
        _ => of_run(refusal),
    }
}

/// Why the library refuses the records of a notation: the names, and the line of each node.
pub fn composed(records: &[u8], names: &Names, lines: &[usize], refusal: Refusal) -> Problem {
    let records: Vec<[u8; RECORD]> =
        records.chunks_exact(RECORD).map(|record| record.try_into().expect("ten bytes")).collect();
    let problem = match refusal {
        Refusal::BadLength => Some(node_count(records.len(), lines)),
        Refusal::Full { ticks } => {
            let records = records.concat();
            Some(full_stack(ticks, Some((&written(&records), chart::nodes(&records)))))
        }
        _ if is_of_records(refusal) => of_records(&records, refusal, Voice::Notation { names, lines }),
        _ => of_run(refusal),
    };
    held(problem, refusal, refusal.frame().and_then(|node| lines.get(node).copied()))
}

/// The reason found, if it is one for this refusal: on the line that the library names, where it names one.
fn held(reason: Option<Problem>, refusal: Refusal, line: Option<usize>) -> Problem {
    let problem = match reason {
        None => Problem::internal("the library turns this back, and no reason for it is found"),
        Some(problem) if line.is_some() && problem.line != line => {
            let found = problem.line.map_or("no line".to_string(), |found| format!("line {found}"));
            let what = format!(
                "the library turns line {} back, and a reason is found on {found}",
                line.unwrap_or(0)
            );
            Problem::internal(what)
        }
        Some(problem) => problem,
    };
    problem.refused(refusal)
}

/// Refusal 1 of a notation.
fn node_count(nodes: usize, lines: &[usize]) -> Problem {
    if nodes == 0 {
        return Problem::new("there is no node in it").advice("begin and end lines below 'scheme 1'");
    }
    let words = format!("there are {}, and {NODES} are the most", counted(nodes, "node"));
    Problem { line: lines.get(NODES).copied(), ..Problem::new(words) }
        .advice("schemes that can be shared by calls")
}

/// The ten bytes of each line; the library has accepted lines and sums.
pub fn frames(text: &[u8]) -> Option<Vec<[u8; RECORD]>> {
    text.chunks(LINE).map(|line| lines::bytes_of(line)?[..RECORD].try_into().ok()).collect()
}

/// Whether a refusal is of a chart's nodes.
fn is_of_records(refusal: Refusal) -> bool {
    matches!(refusal.number(), 4..=10 | 19 | 20)
}

fn of_records(records: &[[u8; RECORD]], refusal: Refusal, voice: Voice) -> Option<Problem> {
    match refusal {
        Refusal::BadField(node) => nodes::field(records, node, voice),
        Refusal::BadScheme => nodes::ends(records, voice),
        Refusal::BadArc(node) => nodes::arc(records, node, voice),
        Refusal::BadCall(node) => nodes::call(records, node, voice),
        Refusal::Circle(node) => paths::on_circle(records, node, voice),
        Refusal::CutOff(node) => paths::cut_off(records, node, voice),
        Refusal::BadMarks => nodes::marks(records, voice),
        Refusal::CallsItself => circles::of_calls(records, voice),
        _ => rows::rows(records, voice),
    }
}

/// The nodes of a chart's text.
fn chart_of(text: &[u8], asked: Kind) -> Option<Vec<Node>> {
    let frames = (asked == Kind::Chart).then(|| frames(text)).flatten()?;
    Some(chart::nodes(&frames.concat()))
}

/// The lines of a chart's records, which the library has accepted.
fn written(records: &[u8]) -> Vec<u8> {
    let mut text = vec![0; CHART_TEXT];
    match Proved.write_chart(records, &mut text) {
        Ok(length) => text[..length].to_vec(),
        Err(_) => Vec::new(),
    }
}

/// Refusal 17 after so many ticks, with advice that fits the chart that was run, where it was one.
fn full_stack(ticks: usize, chart: Option<(&[u8], Vec<Node>)>) -> Problem {
    let advice = match chart {
        None => "an image that calls deeper than the stack has places: more places (32 at most), or calls less deep".to_string(),
        Some((_, nodes)) if handler(&nodes) != 0 => {
            "a handler that calls deeper than the stack has places: more places (32 at most), or a handler that calls less deep".to_string()
        }
        Some((text, nodes)) => match too_deep(text, &nodes) {
            Ok(advice) => advice,
            Err(differing) => return differing,
        },
    };
    let ticks = counted(ticks, "tick");
    Problem::new(format!("after {ticks} a call finds the stack full")).advice(advice)
}

/// What to do where a chart without a handler finds the stack full: how deep it calls is held to the library's places.
fn too_deep(text: &[u8], nodes: &[Node]) -> Result<String, Problem> {
    let (_, calls) = places::held(Proved.places(text), Calls::of(nodes))?;
    Ok(match calls {
        Calls::Circle(_) => {
            "a chart that calls itself, for which no number of places is enough whatever the words: more places (32 at most), words \
             by which it calls less deep, or a handler, which starts when the stack is full"
                .to_string()
        }
        Calls::Chain(schemes) => {
            let places = counted(schemes.len(), "place");
            format!("too few places: this chart needs {places}, and more only where a scheme is swapped for one that calls deeper")
        }
    })
}

/// Refusals 14 to 16, 18, 21, 22, 24, 27 and 28, which name no line.
fn of_run(refusal: Refusal) -> Option<Problem> {
    let (words, advice) = match refusal {
        Refusal::BadSize => ("a stack has 1 to 32 places".to_string(), "the number of places asked for"),
        Refusal::Unfit => ("the state does not fit the image".to_string(), "a state kept from another chart"),
        Refusal::NoRoom => ("a buffer is too short for the answer".to_string(), "the caller's buffers"),
        Refusal::NoRow { ticks } => (
            format!("after {} no row of the label matches the word", counted(ticks, "tick")),
            "a row that was taken out of the image by hand; the image of a chart has them all",
        ),
        Refusal::Rowless => {
            ("the tick takes no row".to_string(), "a tick before it or after it that is plain or a return")
        }
        Refusal::BadRebinding => (
            "this number cannot be given to that scheme".to_string(),
            "a number and a scheme from 2 to the highest one, and a number that is not the handler's",
        ),
        Refusal::NoLittleChart => (
            "there is no such little chart".to_string(),
            "a frame count of 2, 3 or 4, and a number that the wall sheet has; the first is 0",
        ),
        Refusal::ManyWords => (
            "there are too many words for one price".to_string(),
            "fewer ticks; a longer run is priced in parts, each rounded by itself",
        ),
        Refusal::ManyLists => (
            "there are too many lists to count, or their words are too many".to_string(),
            "fewer ticks or fewer conditions: 16 ticks of one condition, 8 of two, 5 of three, 4 of four",
        ),
        _ => return None,
    };
    Some(Problem::new(words).advice(advice))
}

/// What an accepted text is, in words.
pub fn accepted(nodes: Option<usize>, image: &[u8]) -> String {
    let Some(header) = frames(image).and_then(|frames| frames.first().map(image::Header::of)) else {
        return "accepted".to_string();
    };
    let schemes = counted(header.schemes, "scheme");
    let (labels, rows) = (thousands(header.last + 1), counted(header.rows, "row"));
    let handler = match header.handler {
        0 => String::new(),
        scheme => format!("; scheme {scheme} is the handler"),
    };
    match nodes {
        Some(nodes) => {
            format!(
                "accepted: a chart of {} in {schemes}; its image has {labels} labels and {rows}{handler}",
                counted(nodes, "node")
            )
        }
        None => format!("accepted: an image of {schemes}, {labels} labels and {rows}{handler}"),
    }
}

#[cfg(test)]
mod tests {
    use super::*;

    const CHART: &[u8] = include_bytes!("../../../../examples/home.chart");
    const IMAGE: &[u8] = include_bytes!("../../../../examples/home.image");

    /// The places that a chart needs are those of its lines; lines of another chart have another number.
    #[test]
    fn the_places_of_a_full_stack_are_held_to_the_library() {
        const CHAIN: &[u8] = include_bytes!("../../../../examples/bore.chart");
        let nodes = chart_of(CHAIN, Kind::Chart);
        let told = |text| full_stack(2, Some((text, nodes.clone().expect("a chart"))));
        assert!(
            told(CHAIN).advice.starts_with("too few places: this chart needs 2 places, "),
            "{}",
            told(CHAIN)
        );
        let differing = "internal error: a chain of 2 schemes is found, and the library says 1 place";
        assert_eq!(told(CHART).words, differing);
    }

    /// Refusals that this chart and its image do not deserve, and a reason that is found on another line than the library's.
    #[test]
    fn a_refusal_without_its_reason_is_an_internal_error() {
        let of_chart = (1..=10).chain([19, 20]).map(|number| (CHART, Kind::Chart, number));
        let of_image = [1, 2, 3, 11, 12, 13, 23].map(|number| (IMAGE, Kind::Image, number));
        for (text, kind, number) in of_chart.chain(of_image) {
            let own = Refusal::told(number, 1, 0).or(Refusal::told(number, 0, 0)).expect("a refusal");
            let told = refusal(text, kind, own);
            assert!(told.is_internal() && told.refusal == Some(own), "{told}");
            assert!(told.advice.contains("the makers of this program"), "{told}");
        }
        let found = |line| held(Some(Problem::at(line, 1, "a reason")), Refusal::BadArc(4), Some(5));
        assert_eq!(found(5).words, "line 5, column 1: a reason");
        let told = "internal error: the library turns line 5 back, and a reason is found on line 4";
        assert_eq!(found(4).words, told);
    }
}

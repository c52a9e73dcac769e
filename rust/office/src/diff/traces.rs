//! Two traces, as `fairleadow trace` prints them, by their ticks.

use crate::problem::{counted, Problem};
use crate::trace::table::HEADINGS;

/// A trace that was kept: what was run, whether by labels, the cells of each tick, and how a refusal ended it.
#[derive(Clone, Debug)]
pub struct Kept {
    head: String,
    is_of_image: bool,
    ticks: Vec<Vec<String>>,
    ended: Option<String>,
}

const WORD: usize = 1;
const SCHEME: usize = 3;
const NODE: usize = 4;
const HAPPENS: usize = 5;
const OUTPUTS: usize = 6;
const OPEN: usize = 7;

/// The cells of a line: what stands between two spaces or more.
fn cells(line: &str) -> Vec<String> {
    line.split("  ").map(str::trim).filter(|cell| !cell.is_empty()).map(str::to_string).collect()
}

/// Whether a line has the headings of the table, of a chart's or of an image's.
fn is_heading(line: &str) -> bool {
    let own = cells(line);
    own.len() == HEADINGS.len()
        && own
            .iter()
            .zip(HEADINGS)
            .all(|(own, heading)| own == heading || (heading == "node" && own == "label"))
}

/// Whether a file holds a trace.
pub fn is_trace(bytes: &[u8]) -> bool {
    String::from_utf8_lossy(bytes).lines().take(3).any(is_heading)
}

impl Kept {
    /// From the bytes of a file with the headings of a trace.
    pub fn read(bytes: &[u8]) -> Result<Kept, Problem> {
        let text = String::from_utf8_lossy(bytes);
        let text = text.strip_prefix('\u{FEFF}').unwrap_or(&text);
        let mut lines = text.lines().enumerate();
        let head = lines.next().map_or(String::new(), |(_, line)| line.trim_end().to_string());
        let mut lines = lines.skip_while(|(_, line)| !is_heading(line));
        let is_of_image = lines.next().is_some_and(|(_, line)| cells(line)[NODE] == "label");
        let mut ticks = Vec::new();
        for (at, line) in lines.by_ref().take_while(|(_, line)| !line.trim().is_empty()) {
            let fault = |what: String| Problem::on(at + 1, 1, format!("line {}: {what}", at + 1));
            let own = cells(line);
            if own.len() != HEADINGS.len() {
                let what = format!("the line of a tick has {} cells, not {}", HEADINGS.len(), own.len());
                return Err(fault(what)
                    .advice("the file as `fairleadow trace` prints it")
                    .excerpt(text.as_bytes()));
            }
            if own[0] != ticks.len().to_string() {
                let what = format!("tick {} belongs here", ticks.len());
                return Err(fault(what).advice("a line lost or doubled").excerpt(text.as_bytes()));
            }
            ticks.push(own);
        }
        let next = lines.next().map(|(_, line)| line.trim_end().to_string());
        let ended = next.filter(|line| line.starts_with(&format!("tick {}, word ", ticks.len())));
        Ok(Kept { head, is_of_image, ticks, ended })
    }

    pub fn ticks(&self) -> usize {
        self.ticks.len()
    }

    /// As one that can be held against another: of a chart and of an image by the nodes, which the image has where it was given names.
    pub fn like(&self, other: &Kept) -> Result<Kept, Problem> {
        let mut kept = self.clone();
        if !self.is_of_image || other.is_of_image {
            return Ok(kept);
        }
        for tick in &mut kept.ticks {
            let node = tick[NODE].split_once(' ').map(|(_, node)| node.to_string());
            let without = || {
                Problem::new("this is a trace of an image without names, and the other is one of a chart")
                    .advice("a trace of the image that was made with --names")
            };
            tick[NODE] = node.filter(|node| node != "(End)").ok_or_else(without)?;
        }
        Ok(kept)
    }

    /// The places of its stack, as its head says.
    fn places(&self) -> Option<&str> {
        let (_, rest) = self.head.split_once("; stack of ")?;
        rest.split(';').next()
    }
}

/// The first tick that differs, and why; nothing where all are the same. Traces are told by these names.
pub fn differences(one: &Kept, other: &Kept, names: [&str; 2]) -> Vec<String> {
    let [first, second] = names;
    let common = one.ticks.len().min(other.ticks.len());
    let Some(at) = (0..common).find(|at| one.ticks[*at] != other.ticks[*at]) else {
        return ends(one, other, names);
    };
    let (own, others) = (&one.ticks[at], &other.ticks[at]);
    let mut lines = vec![format!("tick {at} is the first that differs")];
    for (column, heading) in HEADINGS.iter().enumerate().filter(|(column, _)| own[*column] != others[*column])
    {
        lines.push(format!("  {heading}: {} in {first}, {} in {second}", own[column], others[column]));
    }
    lines.push(format!("  why: {}", why(one, other, at, names)));
    lines
}

/// What lets two traces part that were the same up to a tick.
fn why(one: &Kept, other: &Kept, at: usize, [first, second]: [&str; 2]) -> String {
    let (own, others) = (&one.ticks[at], &other.ticks[at]);
    let differs = |column: usize| own[column] != others[column];
    if [SCHEME, NODE, OPEN].into_iter().any(differs) {
        return match at.checked_sub(1).map(|before| &one.ticks[before]) {
            None => "they begin at other places".to_string(),
            Some(before) => format!(
                "in tick {} both stand at {} of {} with word {}; {first} goes on to {}, and {second} to {}, so what leads on from \
                 there is not the same in the two",
                at - 1,
                before[NODE],
                before[SCHEME],
                before[WORD],
                own[NODE],
                others[NODE]
            ),
        };
    }
    if differs(WORD) {
        return "they are given other words".to_string();
    }
    let place = format!("{} of {}", own[NODE], own[SCHEME]);
    match (one.places(), other.places()) {
        (Some(places), Some(others)) if differs(HAPPENS) && places != others => {
            format!("{first} has a stack of {places}, and {second} of {others}")
        }
        _ if differs(OUTPUTS) => format!("{place} puts out something else in the two"),
        _ if differs(HAPPENS) => {
            format!("{place} does something else in the two, or a scheme was swapped in one")
        }
        _ => format!("{place} writes another result in the two, or is named otherwise"),
    }
}

/// Two traces whose common ticks are the same.
fn ends(one: &Kept, other: &Kept, [first, second]: [&str; 2]) -> Vec<String> {
    if one.ticks.len() == other.ticks.len() && one.ended == other.ended {
        return Vec::new();
    }
    let common = one.ticks.len().min(other.ticks.len());
    let end = |kept: &Kept, name: &str| match &kept.ended {
        Some(ended) if kept.ticks.len() == common => format!("  {name} is refused then: {ended}"),
        _ if kept.ticks.len() == common => format!("  {name} ends there"),
        _ => format!(
            "  {name} goes on: tick {common} is at {} of {}",
            kept.ticks[common][NODE], kept.ticks[common][SCHEME]
        ),
    };
    let mut lines = vec![format!("the first {} are the same", counted(common, "tick"))];
    lines.extend([end(one, first), end(other, second)]);
    lines.extend(match (one.places(), other.places()) {
        (Some(places), Some(others)) if places != others => {
            Some(format!("  why: {first} has a stack of {places}, and {second} of {others}"))
        }
        _ => None,
    });
    lines
}

//! Two images: what their labels hold, and by which words each goes elsewhere.

use super::cubes::{covering, Cube};
use super::search::Search;
use crate::image::Image;
use crate::labels::words::{holds, when};
use crate::problem::{counted, thousands, Problem};
use crate::subject::Subject;

/// The most lines that tell by which words one label goes elsewhere.
const LINES: usize = 24;

/// Where a label goes in either image, 0 for an End and none where no row matches.
type Pair = [Option<u8>; 2];

/// What differs, a line each, by the names of the first; nothing where the images are the same. In the lines the second image is the
/// one that holds now, and the first the one before.
pub fn differences(before: &Subject, after: &Image) -> Result<Vec<String>, Problem> {
    let mut lines = headers(before, after);
    let labels = before.image.labels().min(after.labels());
    let searches = [Search::of(&before.image)?, Search::of(after)?];
    for label in (2..labels).map(|label| label as u8) {
        lines.extend(fields(before, after, label));
        if before.image.rows_of(label).ne(after.rows_of(label)) {
            lines.extend(elsewhere(before, after, &searches, label)?);
        }
    }
    for (image, gone) in [(&before.image, true), (after, false)] {
        for label in (labels..image.labels()).map(|label| label as u8) {
            let own = image.label(label);
            let (names, scheme) = (before.names(), before.scheme(own.owner));
            let named = if gone { before.named_label(label) } else { format!("label {label}") };
            let there = if gone { "there no more" } else { "new" };
            lines.push(format!("{named} of {scheme} is {there}: {}", holds(&own, names)));
        }
    }
    Ok(lines)
}

/// Schemes, the handler, and where schemes begin.
fn headers(before: &Subject, after: &Image) -> Vec<String> {
    let image = &before.image;
    let mut lines = Vec::new();
    if image.schemes() != after.schemes() {
        let (own, other) = (image.schemes(), after.schemes());
        lines.push(format!("it has {}, not {own}", counted(usize::from(other), "scheme")));
    }
    if image.handler() != after.handler() {
        let named = |scheme: u8| if scheme == 0 { "none".to_string() } else { before.scheme(scheme) };
        lines.push(format!("the handler is {}, not {}", named(after.handler()), named(image.handler())));
    }
    for scheme in 1..=image.schemes().min(after.schemes()) {
        let (old, new) = (image.entry(scheme), after.entry(scheme));
        if old != new {
            lines.push(format!(
                "{} begins at {}, not {}",
                before.scheme(scheme),
                before.word(new),
                before.word(old)
            ));
        }
    }
    lines
}

/// What a label holds, and whose it is.
fn fields(before: &Subject, after: &Image, label: u8) -> Vec<String> {
    let (old, new) = (before.image.label(label), after.label(label));
    let mut lines = Vec::new();
    let [was, is] = [old, new].map(|fields| holds(&fields, before.names()));
    if was != is {
        lines.push(format!("{}: {is}, not {was}", before.named_label(label)));
    }
    if old.owner != new.owner {
        let [was, is] = [old, new].map(|fields| before.scheme(fields.owner));
        lines.push(format!("{} belongs to {is}, not {was}", before.named_label(label)));
    }
    lines
}

/// The words by which a label goes elsewhere; a label with other rows may go by every word where it went.
fn elsewhere(
    before: &Subject,
    after: &Image,
    searches: &[Search; 2],
    label: u8,
) -> Result<Vec<String>, Problem> {
    let space = Space::of(searches, label);
    let pairs = space.pairs(searches, label)?;
    let differing = pairs.iter().filter(|[old, new]| old != new).count();
    let named = format!("{} of {}", before.named_label(label), before.scheme(after.label(label).owner));
    if differing == 0 {
        return Ok(vec![format!("{named} has other rows, and goes by every word where it went")]);
    }
    let (cubes, left) = covering(&pairs, |[old, new]| old != new, LINES);
    let share = (1usize << 16) >> space.conditions.len();
    let (part, all) = (thousands(differing * share), thousands(pairs.len() * share));
    let of = if space.has_result { "words and results" } else { "words" };
    let mut lines = vec![format!("{named} goes elsewhere by {part} of {all} {of}:")];
    lines.extend(cubes.iter().map(|cube| format!("  {}", line(before, &space, cube, &pairs))));
    if left > 0 {
        lines.push(format!("  and by {} more {of}", thousands(left * share)));
    }
    Ok(lines)
}

/// One block of words, and where the label goes by them.
fn line(before: &Subject, space: &Space, cube: &Cube, pairs: &[Pair]) -> String {
    let (care, values, result) = space.asked(cube);
    let asked = when(before.names(), care, values, result);
    let leads = match pairs[cube.values as usize].map(|next| next.map(|label| before.word(label))) {
        [Some(old), Some(new)] => format!("to {new}, not {old}"),
        [Some(old), None] => format!("by no row (18), not to {old}"),
        [None, Some(new)] => format!("to {new}, not by no row (18)"),
        [None, None] => "by no row (18)".to_string(),
    };
    let asked = if asked.is_empty() { "always" } else { asked.trim_start() };
    format!("{asked}: {leads}")
}

/// What the rows of a label in two images tell apart: conditions, and the result above them where one of the two reads it.
struct Space {
    conditions: Vec<u8>,
    has_result: bool,
}

impl Space {
    fn of(searches: &[Search; 2], label: u8) -> Space {
        let asked = searches.iter().fold(0, |asked, search| asked | search.asked(label));
        Space {
            conditions: (0..16).filter(|number| asked >> number & 1 == 1).collect(),
            has_result: searches.iter().any(|search| search.reads_result(label)),
        }
    }

    /// The word of a point, in which all that nothing asks for is 0.
    fn spread(&self, point: u32) -> u16 {
        let ones = self.conditions.iter().enumerate().filter(|(at, _)| point >> at & 1 == 1);
        ones.fold(0, |word, (_, number)| word | 1 << number)
    }

    fn result(&self, point: u32) -> bool {
        point >> self.conditions.len() & 1 == 1
    }

    /// Where the label goes at every point.
    fn pairs(&self, searches: &[Search; 2], label: u8) -> Result<Vec<Pair>, Problem> {
        let points = 0..1u32 << (self.conditions.len() + usize::from(self.has_result));
        let pair = |point: u32| {
            let [old, new] = searches;
            let (word, result) = (self.spread(point), self.result(point));
            Ok([old.next(label, word, result)?, new.next(label, word, result)?])
        };
        points.map(pair).collect()
    }

    /// The care mask, the values and the result of a block.
    fn asked(&self, cube: &Cube) -> (u16, u16, u8) {
        let result = match self.result(cube.care) {
            true => u8::from(self.result(cube.values)),
            false => 2,
        };
        (self.spread(cube.care), self.spread(cube.values), result)
    }
}

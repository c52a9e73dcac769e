//! Images: of charts, patched, invented without a chart, and damaged.

use super::{charts, damage, letters, Random};
use crate::samples;
use reference::check::chart_of;
use reference::frames::{text_of, Frame};
use reference::image::{image_of, Image, Label, Row, FUNCTION_CALL, PLAIN, ROWS};
use reference::translator;

/// A chart that translates, and its image.
pub fn translated(random: &mut Random) -> (Vec<Frame>, Image) {
    loop {
        let records = charts::chart(random);
        let chart = chart_of(&records).expect("generated charts are valid");
        if let Ok(image) = translator::image_of(&chart) {
            return (records, image);
        }
    }
}

/// An image that the check accepts, most often.
pub fn accepted(random: &mut Random) -> Image {
    if random.once_in(100) {
        return image_of(&samples::largest_image()).expect("an accepted image");
    }
    match random.below(3) {
        0 => translated(random).1,
        1 => {
            let (_, mut image) = translated(random);
            for _ in 0..random.within(1, 6) {
                patch(random, &mut image);
            }
            if random.once_in(4) {
                image.handler = handler(random, image.entries.len());
            }
            image.rows.sort_by_key(|row| row.from);
            image
        }
        _ => invented(random),
    }
}

/// An image text of any sort.
pub fn text(random: &mut Random) -> Vec<u8> {
    let frames = accepted(random).frames();
    let text = match random.below(8) {
        0..=2 => text_of(&frames),
        3..=6 => text_of(&damage::image(random, &frames)),
        _ => damage::text(random, &text_of(&frames)),
    };
    letters::sizes(random, text)
}

/// Removes, doubles, adds or changes a row, or adds one that overlaps another, before or behind it.
fn patch(random: &mut Random, image: &mut Image) {
    let rows = image.rows.len();
    if rows == 0 {
        return;
    }
    let at = random.below(rows);
    match random.below(9) {
        0 | 1 => {
            image.rows.remove(at);
        }
        2 => image.rows.insert(at, image.rows[at]),
        3 => {
            let row = row(random, image, image.rows[at].from);
            image.rows.insert(random.within(0, rows), row);
        }
        4..=7 => {
            let row = overlapping(random, image, image.rows[at]);
            image.rows.insert(at + random.below(2), row);
        }
        _ => {
            let care = random.number() as u16;
            image.rows[at].care &= care;
            image.rows[at].values &= care;
        }
    }
    if random.once_in(50) {
        image.rows = image.rows.iter().cycle().take(random.pick(&[ROWS, ROWS + 1])).copied().collect();
    }
}

/// A row of a label that refusal 13 lets pass.
fn row(random: &mut Random, image: &Image, from: u8) -> Row {
    let label = image.labels[usize::from(from)];
    let care = match random.below(3) {
        0 => 0,
        1 => 1 << random.below(16),
        _ => random.below(8) as u16,
    };
    Row {
        from,
        care,
        values: random.number() as u16 & care,
        function_bit: if label.kind == FUNCTION_CALL { random.below(3) as u8 } else { 2 },
        next: owned(random, &image.labels, label.owner),
    }
}

/// One condition of a mask, as a mask; 0 where it has none.
fn one_of(random: &mut Random, mask: u16) -> u16 {
    let ones: Vec<u16> = (0..16).map(|condition| 1 << condition).filter(|one| mask & one != 0).collect();
    if ones.is_empty() {
        return 0;
    }
    random.pick(&ones)
}

/// A row of the same label that some words match along with this one: it tests a condition more, one less, or the same number,
/// the same ones or not.
fn overlapping(random: &mut Random, image: &Image, row: Row) -> Row {
    let label = image.labels[usize::from(row.from)];
    let (more, less) = (one_of(random, !row.care), one_of(random, row.care));
    let care = match random.below(5) {
        0 => row.care | more,
        1 => row.care & !less,
        2 | 3 if less != 0 => row.care & !less | more,
        _ => row.care,
    };
    let values = row.values & care | random.number() as u16 & more & care;
    let function_bit = if label.kind == FUNCTION_CALL && random.once_in(2) {
        random.below(3) as u8
    } else {
        row.function_bit
    };
    Row { care, values, function_bit, next: owned(random, &image.labels, label.owner), ..row }
}

/// None half of the time, or one of the schemes that can be called.
pub fn handler(random: &mut Random, schemes: usize) -> u8 {
    if schemes < 2 || random.once_in(2) {
        return 0;
    }
    random.within(2, schemes) as u8
}

/// A label that belongs to a scheme, its End's label included.
pub fn owned(random: &mut Random, labels: &[Label], scheme: u8) -> u8 {
    let end = if scheme == 1 { 0 } else { 1 };
    let mut choices: Vec<u8> = vec![end];
    for (number, label) in labels.iter().enumerate().skip(2) {
        if label.owner == scheme {
            choices.push(number as u8);
        }
    }
    random.pick(&choices)
}

/// An accepted image that need not come from any chart.
fn invented(random: &mut Random) -> Image {
    let schemes = random.pick(&[1, 2, 2, 3, 5, 16]);
    let last = match random.below(16) {
        0 => 255,
        1 => 1,
        _ => random.within(1, 40),
    };
    with_labels(random, schemes, last)
}

/// An accepted image of so few labels that a fault in one is soon met.
pub fn small(random: &mut Random) -> Image {
    let (schemes, last) = (random.within(1, 3), random.within(2, 6));
    with_labels(random, schemes, last)
}

/// An accepted image of so many schemes, with labels up to the last. Some rows overlap the row before them.
fn with_labels(random: &mut Random, schemes: usize, last: usize) -> Image {
    let mut labels = vec![Label::ZERO, Label::ONE];
    for _ in 2..=last {
        labels.push(label(random, schemes));
    }
    let entries = (1..=schemes).map(|h| owned(random, &labels, h as u8)).collect();
    let mut image = Image { handler: handler(random, schemes), entries, labels, rows: Vec::new() };
    for from in 2..=last {
        for k in 0..random.pick(&[0, 1, 2, 2, 3, 3]) {
            let row = match image.rows.last() {
                Some(before) if k > 0 && random.once_in(2) => overlapping(random, &image, *before),
                _ => row(random, &image, from as u8),
            };
            image.rows.push(row);
        }
    }
    image
}

fn label(random: &mut Random, schemes: usize) -> Label {
    let kind = if schemes == 1 { PLAIN } else { random.below(3) as u8 };
    Label {
        kind,
        called: if kind == PLAIN { 0 } else { random.within(2, schemes) as u8 },
        owner: random.within(1, schemes) as u8,
        result: random.below(3) as u8,
        mask: random.number() as u32,
    }
}

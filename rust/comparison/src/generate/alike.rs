//! Images with labels that act alike: labels are doubled, rows are split or led to a double, and some are patched so that a word
//! matches no row, or two.

use super::{damage, images, letters, Random};
use reference::frames::text_of;
use reference::image::{Image, Row, FUNCTION_CALL, ROWS};

const LABELS: usize = 256;

/// An image that the check accepts: most have labels that act alike, some have a word that matches no row, or two.
pub fn accepted(random: &mut Random) -> Image {
    let mut image = if random.once_in(3) { small(random) } else { images::translated(random).1 };
    if random.once_in(8) {
        return image;
    }
    if random.once_in(2) {
        plainer(random, &mut image);
    }
    for _ in 0..random.within(1, 5) {
        double(random, &mut image);
    }
    for _ in 0..random.below(5) {
        split(random, &mut image);
    }
    if random.once_in(4) {
        shuffle(random, &mut image);
    }
    if random.once_in(4) {
        patch(random, &mut image);
    }
    image.rows.sort_by_key(|row| row.from);
    image
}

/// An image text of any sort.
pub fn text(random: &mut Random) -> Vec<u8> {
    let frames = accepted(random).frames();
    let text = match random.below(10) {
        0 | 1 => text_of(&damage::image(random, &frames)),
        2 => damage::text(random, &text_of(&frames)),
        _ => text_of(&frames),
    };
    letters::sizes(random, text)
}

/// An image of few labels whose rows match each word and bit once.
pub fn small(random: &mut Random) -> Image {
    let mut image = images::small(random);
    image.rows.clear();
    for from in 2..image.labels.len() {
        let next = images::owned(random, &image.labels, image.labels[from].owner);
        image.rows.push(Row { from: from as u8, care: 0, values: 0, function_bit: 2, next });
    }
    for label in &mut image.labels[2..] {
        (label.mask, label.result) = (random.below(2) as u32, 0);
    }
    for _ in 0..random.below(5) {
        split(random, &mut image);
    }
    for row in &mut image.rows {
        row.next = images::owned(random, &image.labels, image.labels[usize::from(row.from)].owner);
    }
    image.rows.sort_by_key(|row| row.from);
    image
}

/// Few masks and results, so that labels differ less.
fn plainer(random: &mut Random, image: &mut Image) {
    let masks = random.within(1, 3);
    for label in image.labels.iter_mut().skip(2) {
        label.mask = random.below(masks) as u32;
        label.result = random.pick(&[0, 0, 0, 2]);
    }
}

/// A label becomes two with the same rows, and some of what led to the one leads to the other.
fn double(random: &mut Random, image: &mut Image) {
    let count = image.labels.len();
    if count < 3 || count == LABELS {
        return;
    }
    let (like, double) = (random.within(2, count - 1), count as u8);
    let rows: Vec<Row> = image.rows.iter().filter(|row| usize::from(row.from) == like).copied().collect();
    if image.rows.len() + rows.len() > ROWS {
        return;
    }
    image.labels.push(image.labels[like]);
    image.rows.extend(rows.iter().map(|row| Row { from: double, ..*row }));
    for row in image.rows.iter_mut().filter(|row| usize::from(row.next) == like) {
        if random.once_in(2) {
            row.next = double;
        }
    }
    for entry in image.entries.iter_mut().filter(|entry| usize::from(**entry) == like) {
        if random.once_in(3) {
            *entry = double;
        }
    }
    // a double that differs in one field, or leads elsewhere, acts otherwise
    if random.once_in(4) {
        let label = &mut image.labels[usize::from(double)];
        match random.below(3) {
            0 => label.mask ^= 1 << random.below(32),
            1 => label.result = (label.result + 1) % 3,
            _ => {
                let next = images::owned(random, &image.labels, image.labels[like].owner);
                image.rows.last_mut().into_iter().for_each(|row| row.next = next);
            }
        }
    }
}

/// A row becomes two, by a condition that it does not look at or by the bit.
fn split(random: &mut Random, image: &mut Image) {
    if image.rows.is_empty() || image.rows.len() == ROWS {
        return;
    }
    let at = random.below(image.rows.len());
    let row = image.rows[at];
    let calls = image.labels[usize::from(row.from)].kind == FUNCTION_CALL;
    let (zero, one) = if calls && row.function_bit == 2 && random.once_in(2) {
        (Row { function_bit: 0, ..row }, Row { function_bit: 1, ..row })
    } else {
        let condition = 1 << random.below(16);
        if row.care & condition != 0 {
            return;
        }
        let care = row.care | condition;
        (Row { care, ..row }, Row { care, values: row.values | condition, ..row })
    };
    image.rows[at] = zero;
    image.rows.insert(at + random.below(2), one);
}

/// Labels from 2 up get other numbers, so that the lowest of a group is any of it.
fn shuffle(random: &mut Random, image: &mut Image) {
    let order = random.order(image.labels.len() - 2);
    let number = |label: u8| match label {
        0 | 1 => label,
        _ => order[usize::from(label) - 2] as u8 + 2,
    };
    let mut labels = image.labels.clone();
    for (old, label) in image.labels.iter().enumerate() {
        labels[usize::from(number(old as u8))] = *label;
    }
    image.labels = labels;
    image.entries.iter_mut().for_each(|entry| *entry = number(*entry));
    for row in &mut image.rows {
        (row.from, row.next) = (number(row.from), number(row.next));
    }
}

/// Takes a row away, doubles one, widens one, or changes what one asks for.
fn patch(random: &mut Random, image: &mut Image) {
    if image.rows.is_empty() {
        return;
    }
    let at = random.below(image.rows.len());
    match random.below(5) {
        0 => drop(image.rows.remove(at)),
        1 if image.rows.len() < ROWS => image.rows.insert(at, image.rows[at]),
        2 => {
            let care = random.number() as u16;
            image.rows[at].care &= care;
            image.rows[at].values &= care;
        }
        3 => {
            let row = &mut image.rows[at];
            row.values = random.number() as u16 & row.care;
        }
        _ if image.rows[at].function_bit < 2 => image.rows[at].function_bit ^= 1,
        _ => image.rows[at].care |= 1 << random.below(16),
    }
}

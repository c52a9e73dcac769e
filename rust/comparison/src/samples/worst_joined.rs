//! Images that keep the joining of labels busy: many rows of two labels, labels that are told apart one after the other, and labels
//! that are all one. Image and smaller image fit into the board's buffers together.

use reference::image::{Image, Label, Row, PLAIN, ROWS};

/// One scheme with so many plain labels behind the first two, all of one mask but the last.
fn plain(labels: usize, last_mask: u32, rows: Vec<Row>) -> Image {
    let label = Label { kind: PLAIN, called: 0, owner: 1, result: 0, mask: 0 };
    let mut all = vec![Label::ZERO, Label::ONE];
    all.extend(vec![label; labels]);
    all[labels + 1].mask = last_mask;
    Image { handler: 0, entries: vec![2], labels: all, rows }
}

/// Rows that match each word once: by the first conditions' values, as many as two to their number.
fn fan(from: u8, conditions: u32, next: impl Fn(usize) -> u8) -> Vec<Row> {
    let care = ((1u32 << conditions) - 1) as u16;
    let row = |k: usize| Row { from, care, values: k as u16, function_bit: 2, next: next(k) };
    (0..1 << conditions).map(row).collect()
}

/// The same with the last so many of them as one row.
fn shortened(mut rows: Vec<Row>, last: usize) -> Vec<Row> {
    let first = rows.len() - last;
    rows.truncate(first + 1);
    rows[first].care &= !(last as u16 - 1);
    rows
}

/// Each label leads to the one after it, the last home: they are told apart from the last down, one a round.
fn line() -> Image {
    let next = |label: u8| if label == 255 { 0 } else { label + 1 };
    let rows = (2..=255).flat_map(|label| shortened(fan(label, 2, move |_| next(label)), 2));
    plain(254, 1, rows.collect())
}

/// Two labels with 512 rows each, which lead to one another: each pair of rows is looked at.
fn two_fans() -> Image {
    let rows = [fan(2, 9, |k| 2 + (k % 2) as u8), fan(3, 9, |k| 3 - (k % 2) as u8)].concat();
    plain(2, 0, rows)
}

/// One label with many rows, no two of which overlap.
fn one_fan() -> Image {
    plain(1, 0, shortened(fan(2, 10, |_| 2), 32))
}

/// All labels act alike, each with four rows.
fn all_alike() -> Image {
    let rows = (2..=255).flat_map(|label| fan(label, 2, move |k| label ^ (k % 2) as u8));
    plain(254, 0, rows.collect())
}

/// So many rows that match each word once: by the first conditions' values, and some of them by one condition more.
fn fan_of(from: u8, count: usize, next: impl Fn(usize) -> u8) -> Vec<Row> {
    let few = 1 << count.ilog2();
    let row = |k: usize| {
        let half = k % few;
        let care = if half < count - few { 2 * few - 1 } else { few - 1 };
        Row { from, care: care as u16, values: k as u16, function_bit: 2, next: next(half) }
    };
    (0..count).map(row).collect()
}

/// Two labels of many rows, which lead to one another, and a line of labels that are told apart one a round.
fn fans_beside_a_line() -> Image {
    let last = 223;
    let fans = [fan_of(2, 385, |k| 2 + (k % 2) as u8), fan_of(3, 385, |k| 3 - (k % 2) as u8)].concat();
    let line = (4..=last).flat_map(|label| fan(label, 0, move |_| if label == last { 0 } else { label + 1 }));
    plain(usize::from(last) - 1, 1, fans.into_iter().chain(line).collect())
}

/// One label of many rows and many of one row that act alike, and a line of labels that are told apart one a round.
fn many_beside_a_line() -> Image {
    let (first, last) = (129, 254);
    let alike = (3..first).flat_map(|label| fan(label, 0, |_| 2));
    let line =
        (first..=last).flat_map(|label| fan(label, 0, move |_| if label == last { 0 } else { label + 1 }));
    plain(usize::from(last) - 1, 1, fan_of(2, 640, |_| 2).into_iter().chain(alike).chain(line).collect())
}

/// Two labels of many rows, which lead to the highest label of each of four masks. Of the labels of a mask the higher half is parted from
/// the lower in each round, until each is alone: so all of these rows are looked at again in each round.
fn fans_over_halves() -> Image {
    let (first, halved) = (4u8, 128u8);
    let highest = |k: usize| first + 32 * (k % 4) as u8 + 31;
    let fans = [fan_of(2, 448, highest), fan_of(3, 448, highest)].concat();
    let halves = (0..halved).flat_map(|k| fan(first + k, 0, move |_| first + k % 64 * 2));
    let mut image = plain(2 + usize::from(halved), 0, fans.into_iter().chain(halves).collect());
    for k in 0..halved {
        image.labels[usize::from(first + k)].mask = 1 + u32::from(k / 32);
    }
    image
}

pub fn worst_joined() -> Vec<(&'static str, Image)> {
    let all = vec![
        ("254 labels told apart one after the other", line()),
        ("two labels of 512 rows", two_fans()),
        ("one label of 993 rows that do not overlap", one_fan()),
        ("254 labels that act alike", all_alike()),
        ("two labels of 385 rows beside 220 told apart one after the other", fans_beside_a_line()),
        (
            "127 labels that act alike, one of 640 rows, beside 126 told apart one after the other",
            many_beside_a_line(),
        ),
        ("two labels of 448 rows over classes halved in each round", fans_over_halves()),
    ];
    assert!(all.iter().all(|(_, image)| image.rows.len() <= ROWS));
    all
}

#[cfg(test)]
mod tests {
    use super::*;
    use reference::entry::minimised;
    use reference::frames::text_of;

    #[test]
    fn each_is_joined_and_fits_the_board_beside_what_it_becomes() {
        let sizes: Vec<[usize; 2]> = worst_joined()
            .iter()
            .map(|(_, image)| {
                let text = text_of(&image.frames());
                [text.len(), minimised(&text).expect("one row for each word").len()].map(|length| length / 23)
            })
            .collect();
        assert_eq!(
            sizes,
            [[1_020, 1_020], [1_030, 517], [998, 998], [1_274, 9], [1_216, 830], [1_149, 897], [1_158, 709]]
        );
        assert!(sizes.iter().all(|[given, smaller]| 23 * (given + smaller) <= 47_104));
    }
}

//! Labels that act alike, joined: refusal 23, which labels share a group, and the image with one label a group.

use crate::image::{Image, Row};

/// The rows of a label.
fn rows_of(image: &Image, label: usize) -> Vec<&Row> {
    image.rows.iter().filter(|row| usize::from(row.from) == label).collect()
}

/// Whether a row matches a word and a bit.
pub fn matches(row: &Row, word: u16, bit: u8) -> bool {
    word & row.care == row.values && (row.function_bit == 2 || row.function_bit == bit)
}

/// All words with ones only where the mask has them.
fn words_within(mask: u16) -> impl Iterator<Item = u16> {
    let mut next = Some(0u16);
    std::iter::from_fn(move || {
        let word = next?;
        let after = word.wrapping_sub(mask) & mask;
        next = (after != 0).then_some(after);
        Some(word)
    })
}

/// Whether some word and bit match no row of this label, or two (23). A condition that no care mask of the label has changes nothing:
/// a word matches what it matches without it. So only words of the other conditions are tried.
fn uneven_at(image: &Image, label: usize) -> bool {
    let rows = rows_of(image, label);
    let asked = rows.iter().fold(0, |mask, row| mask | row.care);
    let once = |word, bit| rows.iter().filter(|row| matches(row, word, bit)).count() == 1;
    words_within(asked).any(|word| !once(word, 0) || !once(word, 1))
}

/// Whether it is so at some label from 2 up.
pub fn uneven(image: &Image) -> bool {
    (2..image.labels.len()).any(|label| uneven_at(image, label))
}

/// Whether two rows can match one word and bit: where both look, they ask for the same.
pub fn together(a: &Row, b: &Row) -> bool {
    let bits = a.function_bit == 2 || b.function_bit == 2 || a.function_bit == b.function_bit;
    (a.values ^ b.values) & a.care & b.care == 0 && bits
}

/// Which labels share a group in the grouping with fewest groups, by the lowest member of each label's group: two labels are kept
/// apart only where the rule asks for it. Where 23 is not given, labels that are not kept apart from a third are not from each other.
pub fn lowest_members(image: &Image) -> Vec<usize> {
    let count = image.labels.len();
    let rows: Vec<Vec<&Row>> = (0..count).map(|label| rows_of(image, label)).collect();
    let mut apart: Vec<Vec<bool>> =
        image.labels.iter().map(|a| image.labels.iter().map(|b| a != b).collect()).collect();
    loop {
        let leads_apart = |a: usize, b: usize| {
            let pairs = rows[a].iter().flat_map(|r| rows[b].iter().map(move |s| (r, s)));
            pairs.into_iter().any(|(r, s)| apart[usize::from(r.next)][usize::from(s.next)] && together(r, s))
        };
        let pairs = (0..count).flat_map(|b| (0..b).map(move |a| (a, b)));
        let found: Vec<(usize, usize)> =
            pairs.filter(|(a, b)| !apart[*a][*b] && leads_apart(*a, *b)).collect();
        if found.is_empty() {
            break;
        }
        for (a, b) in found {
            (apart[a][b], apart[b][a]) = (true, true);
        }
    }
    (0..count).map(|b| (0..=b).find(|a| !apart[*a][b]).expect("no label is apart from itself")).collect()
}

/// The image in which each group is one label: its lowest member, with that one's rows.
pub fn joined(image: &Image) -> Image {
    let lowest = lowest_members(image);
    let kept: Vec<usize> = (0..lowest.len()).filter(|label| lowest[*label] == *label).collect();
    let renumbered = |label: u8| {
        let group = lowest[usize::from(label)];
        kept.iter().position(|member| *member == group).expect("the lowest of a group is kept") as u8
    };
    let mut rows = Vec::new();
    for (number, label) in kept.iter().enumerate() {
        let own = rows_of(image, *label).into_iter();
        rows.extend(own.map(|row| Row { from: number as u8, next: renumbered(row.next), ..*row }));
    }
    Image {
        handler: image.handler,
        entries: image.entries.iter().map(|label| renumbered(*label)).collect(),
        labels: kept.iter().map(|label| image.labels[*label]).collect(),
        rows,
    }
}

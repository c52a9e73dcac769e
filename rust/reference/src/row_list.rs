//! Where the rows of each label stand among an image's rows.

use crate::image::Image;

/// For each label, from 0 on, the number of its first row and the count of its rows; two zeros where it has none.
pub fn row_list(image: &Image) -> (Vec<u16>, Vec<u16>) {
    let own = |label: usize| (0..image.rows.len()).filter(move |k| usize::from(image.rows[*k].from) == label);
    let labels = 0..image.labels.len();
    let firsts = labels.clone().map(|label| own(label).next().unwrap_or(0) as u16);
    let counts = labels.map(|label| own(label).count() as u16);
    (firsts.collect(), counts.collect())
}

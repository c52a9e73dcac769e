//! An image as a list that a person can read: the labels of each scheme, and below each its rows.

use super::words::{holds, row};
use crate::problem::counted;
use crate::subject::Subject;

/// The whole list.
pub fn listing(subject: &Subject) -> String {
    let image = &subject.image;
    let (schemes, labels) = (usize::from(image.schemes()), image.labels());
    let (schemes, labels) = (counted(schemes, "scheme"), counted(labels, "label"));
    let mut text =
        format!("# an image of {schemes}, {labels} and {}\n", counted(image.rows().count(), "row"));
    for scheme in 1..=image.schemes() {
        text.push_str(&of_scheme(subject, scheme));
    }
    text
}

fn of_scheme(subject: &Subject, scheme: u8) -> String {
    let image = &subject.image;
    let handler = if image.handler() == scheme { ", the handler," } else { "" };
    let entry = subject.word(image.entry(scheme));
    let mut text = format!("\n{}{handler} begins at {entry}\n", subject.scheme(scheme));
    let own =
        (2..image.labels()).map(|label| label as u8).filter(|label| image.label(*label).owner == scheme);
    for label in own {
        text.push_str(&format!(
            "  {}: {}\n",
            subject.named_label(label),
            holds(&image.label(label), subject.names())
        ));
        let rows: Vec<String> =
            image.rows_of(label).map(|own| format!("    {}\n", row(subject, &own))).collect();
        text.push_str(if rows.is_empty() { "    no row\n" } else { "" });
        text.push_str(&rows.concat());
    }
    text
}

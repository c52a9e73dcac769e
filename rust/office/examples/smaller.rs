//! Prints how much smaller images become when labels that act alike are joined, as docs/MEASUREMENTS.md has it: the example charts
//! and random charts.

use std::fs;
use std::path::Path;

use comparison::generate::{charts, Random};
use fairleadow::{Library, Proved, IMAGE_TEXT};
use office::commands::minimise::{minimised, size};
use office::problem::thousands;
use reference::frames::{text_of, Frame};

/// The charts drawn, by seeds from 0 on.
const SEEDS: u64 = 10_000;

/// The image of a chart that translates.
fn translated(chart: &[u8]) -> Option<Vec<u8>> {
    let mut image = vec![0; IMAGE_TEXT];
    Proved.translate(chart, &mut image).ok().map(|length| image[..length].to_vec())
}

/// An image's labels, rows and characters, before and after.
fn sizes(image: &[u8]) -> [[usize; 3]; 2] {
    let smaller = minimised(image).expect("the image of a chart");
    [image, &smaller].map(|image| [size(image).0, size(image).1, image.len()])
}

fn line(name: &str, [given, smaller]: [[usize; 3]; 2]) {
    let part = |[labels, rows, characters]: [usize; 3]| {
        format!("{} | {} | {}", thousands(labels), thousands(rows), thousands(characters))
    };
    println!("| {name} | {} | {} |", part(given), part(smaller));
}

/// The sums over random charts, changed by this first.
fn random(name: &str, change: fn(&mut [Frame])) {
    let (mut sums, mut drawn, mut joined) = ([[0; 3]; 2], 0, 0);
    for seed in 0..SEEDS {
        let mut records = charts::chart(&mut Random::new(seed));
        change(&mut records);
        let Some(image) = translated(&text_of(&records)) else { continue };
        let both = sizes(&image);
        for (sum, part) in sums.as_flattened_mut().iter_mut().zip(both.as_flattened()) {
            *sum += part;
        }
        drawn += 1;
        joined += usize::from(both[1][0] < both[0][0]);
    }
    line(&format!("{} {name}, {} of them smaller", thousands(drawn), thousands(joined)), sums);
}

/// Operations with no mask but bit 0, and no result.
fn one_operation(records: &mut [Frame]) {
    for record in records.iter_mut().filter(|record| record[0] == 2) {
        record[5..9].fill(0);
        record[9] &= 1;
    }
}

fn main() {
    println!("| Charts | Labels | Rows | Characters | Labels after | Rows after | Characters after |");
    println!("|---|---:|---:|---:|---:|---:|---:|");
    let folder = Path::new(env!("CARGO_MANIFEST_DIR")).join("../../examples");
    let mut paths: Vec<_> =
        fs::read_dir(folder).expect("the examples").map(|entry| entry.expect("a file").path()).collect();
    paths.retain(|path| path.extension().is_some_and(|end| end == "chart"));
    paths.sort();
    for path in paths {
        let image = translated(&fs::read(&path).expect("an example")).expect("a valid chart");
        let name = path.file_name().map(|name| name.to_string_lossy().into_owned());
        line(&format!("examples/{}", name.unwrap_or_default()), sizes(&image));
    }
    random("random charts", |_| {});
    random("random charts with two masks and no results", one_operation);
}

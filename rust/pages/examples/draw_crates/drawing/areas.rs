//! The areas of crates.txt: a line `## NAME` begins one, and the crates up to the next such line stand in it.

use std::collections::{BTreeMap, BTreeSet};

pub struct Area {
    pub name: String,
    pub crates: Vec<String>,
    /// The areas that it stands on, as places in the list, without those that one of them stands on.
    pub below: BTreeSet<usize>,
}

/// The areas in the order of the list. An area stands on earlier ones alone, and so does each crate on earlier crates.
pub fn areas(list: &str) -> Vec<Area> {
    let mut areas: Vec<Area> = Vec::new();
    let mut area_of = BTreeMap::new();
    let listed: Vec<&str> = list.lines().filter(|line| !line.starts_with("# ")).collect();
    let is_listed = |name: &str| listed.iter().any(|line| line.split(':').next() == Some(name));
    for line in &listed {
        if let Some(name) = line.strip_prefix("## ") {
            assert!(areas.iter().all(|area| area.name != name), "the area {name} begins twice");
            areas.push(Area { name: name.to_owned(), crates: Vec::new(), below: BTreeSet::new() });
        } else if let Some((name, needs)) = line.split_once(':') {
            let here = areas.len().checked_sub(1).unwrap_or_else(|| panic!("{name} stands in no area"));
            // a library of the toolchain is not listed
            for need in needs.split_whitespace().filter(|need| is_listed(need)) {
                let there = *area_of.get(need).unwrap_or_else(|| panic!("{name} comes before {need}"));
                areas[here].below.insert(there);
            }
            areas[here].below.remove(&here);
            areas[here].crates.push(name.to_owned());
            area_of.insert(name, here);
        }
    }
    keep_direct(&mut areas);
    areas
}

/// Leaves out each arc to an area that is reached through another one.
fn keep_direct(areas: &mut [Area]) {
    let mut reached: Vec<BTreeSet<usize>> = Vec::new();
    for area in areas {
        let through: BTreeSet<usize> = area.below.iter().flat_map(|below| reached[*below].clone()).collect();
        reached.push(through.union(&area.below).copied().collect());
        area.below = area.below.difference(&through).copied().collect();
    }
}

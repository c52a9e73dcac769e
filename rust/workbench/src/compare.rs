//! A run beside one that was kept: where they part, and what they differ in.

use office::problem::counted;
use office::trace::table::HEADINGS;

use crate::piece::Run;

/// The most ticks that are told one by one.
const MOST_TOLD: usize = 12;
/// The columns that are compared: not the tick's number, and not the word, which is what was tried.
const COMPARED: std::ops::Range<usize> = 3..9;

/// In words: how many ticks are the same, those that differ, and the outputs that are on at other numbers of ticks.
pub fn compared(kept: &dyn Run, run: &dyn Run) -> String {
    let common = kept.ticks().min(run.ticks());
    let differing: Vec<usize> =
        (0..common).filter(|number| !differences(kept, run, *number).is_empty()).collect();
    let mut lines = vec![match differing.first() {
        None => format!("both runs have the same {}", counted(common, "tick")),
        Some(first) => {
            format!("{} of {common} differ, the first is tick {first}", counted(differing.len(), "tick"))
        }
    }];
    if kept.ticks() != run.ticks() {
        lines.push(format!("the kept run has {}, this one {}", counted(kept.ticks(), "tick"), run.ticks()));
    }
    for number in differing.iter().take(MOST_TOLD) {
        lines.push(format!("tick {number}: {}", differences(kept, run, *number).join("; ")));
    }
    if differing.len() > MOST_TOLD {
        lines.push(format!("and {} more", counted(differing.len() - MOST_TOLD, "tick")));
    }
    if ended(kept) != ended(run) {
        lines.push(format!("the kept run ends with {}, this one with {}", ended(kept), ended(run)));
    }
    lines.extend(outputs(kept, run));
    lines.join("\n")
}

/// What of a tick differs, by the columns of the table.
fn differences(kept: &dyn Run, run: &dyn Run, number: usize) -> Vec<String> {
    let (Some(old), Some(new)) = (kept.cells(number), run.cells(number)) else { return Vec::new() };
    let differ = COMPARED.filter(|column| old[*column] != new[*column]);
    differ.map(|column| format!("{} {} instead of {}", HEADINGS[column], new[column], old[column])).collect()
}

/// The refusal that a run ended with, which is no tick, by its row and the cell that tells it.
fn ended(run: &dyn Run) -> String {
    let refused = run.cells(run.ticks()).map(|cells| format!("row {}, {}", cells[0], cells[5]));
    refused.unwrap_or_else(|| "no refusal".to_string())
}

/// The outputs that are on at other numbers of ticks.
fn outputs(kept: &dyn Run, run: &dyn Run) -> Vec<String> {
    let on = |run: &dyn Run, output: u8| {
        (0..run.ticks()).filter(|number| run.mask(*number) >> output & 1 == 1).count()
    };
    let line = |output: u8| {
        let (old, new) = (on(kept, output), on(run, output));
        let (was, is) = (kept.names().operation(output), run.names().operation(output));
        let name = if was == is { is } else { format!("{is} (kept: {was})") };
        (old != new).then(|| format!("{name} is on at {} instead of {old}", counted(new, "tick")))
    };
    (0..32).filter_map(line).collect()
}

//! Tables of the times and the instructions of calls.

use crate::measure::{instructions, times, Line};

/// A ratio with two digits behind the point, or with three where it is small.
fn shown(ratio: f64) -> String {
    if ratio < 0.1 {
        format!("{ratio:.3}")
    } else {
        format!("{ratio:.2}")
    }
}

/// The first side's number, then each other's and the ratio to it.
fn cells(numbers: &[f64]) -> String {
    let ratios = numbers[1..].iter().map(|other| format!(" {other:.0} | {} |", shown(numbers[0] / other)));
    format!(" {:.0} |{}", numbers[0], ratios.collect::<String>())
}

/// The table of this number, of the lines that are wanted; its sides have these names.
pub fn print_table(number: usize, sides: &[&str], lines: Vec<Line>, wanted: impl Fn(&str) -> bool) {
    let lines: Vec<Line> = lines.into_iter().filter(|line| wanted(&line.name)).collect();
    if lines.is_empty() {
        return;
    }
    let heads = |unit: &str| {
        let others = sides[1..].iter().map(|side| format!(" {side}, {unit} | Ratio |"));
        format!(" {}, {unit} |{}", sides[0], others.collect::<String>())
    };
    println!("| Input | Call |{}{}", heads("ns"), heads("instructions"));
    println!("|---|---|{}", "---:|".repeat(2 * (2 * sides.len() - 1)));
    for mut line in lines {
        let nanoseconds = cells(&times(&mut line));
        let counted: Option<Vec<f64>> = (0..sides.len())
            .map(|side| instructions(&number.to_string(), &line.name, side).map(|count| count as f64))
            .collect();
        let counted = counted.map_or(" |".repeat(2 * sides.len() - 1), |numbers| cells(&numbers));
        println!("| {} |{nanoseconds}{counted}", line.name);
    }
}

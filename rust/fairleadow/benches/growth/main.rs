//! How calls grow with what they are handed, the library beside plain Rust written for speed, in one run. `cargo bench --offline -p
//! fairleadow --bench growth` prints a table of inputs of one form, each twice as large as the one before, and one of the constructed
//! inputs that take longest, names each call that grows faster than its definition says, and draws docs/pictures/growth.svg. Where
//! valgrind is at hand, instructions are counted too. Words after `--` pick the calls by name, and then nothing is drawn.

#[path = "../measure/mod.rs"]
mod measure;
mod picture;
mod series;

use std::env;
use std::fs;
use std::path::Path;
use std::time::{Duration, Instant};

use comparison::entry_point::{EntryPoint, Input};
use comparison::samples::worst::{known, Origin};
use fast::Fast;
use proved::Proved;
use reference::Library;

use measure::calls::call_of;
use measure::{instructions, times, Line, ONE_CALL};
use picture::Panel;
use series::{Series, SIZES};

const SIDES: [&dyn Library; 2] = [&Proved, &Fast];

/// How much more than its definition's power an exponent may be before the call is named: from some size on valgrind counts an instruction
/// for each byte that is copied or cleared, which looks like a faster growth.
const MARGIN: f64 = 0.25;

/// How often each time is taken.
const ROUNDS: usize = 5;

fn line(name: String, call: EntryPoint, input: &Input) -> Line {
    Line { name, sides: SIDES.map(|library| call_of(call, library, input)).into() }
}

fn lines_of(series: &Series) -> Vec<Line> {
    series.by.sizes().iter().map(|size| line(size.to_string(), series.call, &(series.input)(*size))).collect()
}

/// The construction that keeps the library longest, by one call of each.
fn longest(call: EntryPoint) -> Option<Line> {
    let constructed = known(call).into_iter().filter(|one| one.origin == Origin::Construction);
    let timed = constructed.map(|one| {
        let mut made = call_of(call, SIDES[0], &one.input);
        let least = (0..3).map(|_| {
            let start = Instant::now();
            made();
            start.elapsed()
        });
        (least.min().unwrap_or(Duration::ZERO), one)
    });
    let (_, one) = timed.max_by_key(|(time, _)| *time)?;
    Some(line(one.name, call, &one.input))
}

/// As which power of its size something grows, by what the last two doublings add.
fn exponent(numbers: &[f64]) -> f64 {
    let [.., before, half, all] = numbers else { return f64::NAN };
    ((all - half) / (half - before)).log2()
}

/// A number with commas between thousands.
fn grouped(number: f64) -> String {
    let digits = format!("{number:.0}");
    let first = digits.len() % 3;
    let mut parts: Vec<&str> = if first > 0 { vec![&digits[..first]] } else { Vec::new() };
    parts.extend((first..digits.len()).step_by(3).map(|at| &digits[at..at + 3]));
    parts.join(",")
}

/// Both sides and their ratio; nothing where nothing was counted.
fn beside(counted: &[Option<u64>]) -> String {
    match counted {
        [Some(library), Some(fast)] => {
            let (library, fast) = (*library as f64, *fast as f64);
            format!(" {} | {} | {:.2} |", grouped(library), grouped(fast), library / fast)
        }
        _ => " | | |".to_string(),
    }
}

/// The least time of each line's sides. What else the machine does for a while slows one round down, and not all.
fn least_times(lines: &mut [Line]) -> Vec<[f64; 2]> {
    let mut least = vec![[f64::MAX; 2]; lines.len()];
    for _ in 0..ROUNDS {
        for (line, least) in lines.iter_mut().zip(&mut least) {
            for (least, time) in least.iter_mut().zip(times(line)) {
                *least = least.min(time);
            }
        }
    }
    least
}

/// The instructions of one call of each side, by the number of the series or of what follows them.
fn counted(number: usize, line: &Line) -> [Option<u64>; 2] {
    [0, 1].map(|side| instructions(&number.to_string(), &line.name, side))
}

/// Prints a series' row, and hands back its panel, and its name where it grows faster than its definition says.
fn print_series(
    number: usize,
    series: &Series,
    lines: &[Line],
    times: &[[f64; 2]],
) -> (Panel, Option<String>) {
    let counts: Vec<[Option<u64>; 2]> = lines.iter().map(|line| counted(number, line)).collect();
    let nanoseconds = [0, 1].map(|side| times.iter().map(|both| both[side]).collect::<Vec<f64>>());
    let [library, fast] = &nanoseconds;
    let grown: Option<Vec<f64>> = counts.iter().map(|both| both[0].map(|count| count as f64)).collect();
    let power = exponent(grown.as_ref().unwrap_or(library));
    let cells: String = library.iter().map(|time| format!(" {} |", grouped(*time))).collect();
    let all = times.len() - 1;
    println!(
        "| {} | {} | {} {} |{cells} {} | {:.2} |{} {power:.2} | {} |",
        series.call.name(),
        series.inputs,
        grouped(series.by.largest() as f64),
        series.by.name(),
        grouped(fast[all]),
        library[all] / fast[all],
        beside(&counts[all]),
        series.power,
    );
    let named = (power > f64::from(series.power) + MARGIN)
        .then(|| format!("{}, {}", series.call.name(), series.inputs));
    let panel = Panel {
        title: series.call.name().to_string(),
        inputs: series.inputs.to_string(),
        sizes: series.by.sizes(),
        by: series.by.name(),
        nanoseconds,
    };
    (panel, named)
}

fn print_longest(number: usize, call: EntryPoint, line: &Line, [library, fast]: [f64; 2]) {
    println!(
        "| {} | {} | {} | {} | {:.2} |{}",
        call.name(),
        line.name,
        grouped(library),
        grouped(fast),
        library / fast,
        beside(&counted(number, line))
    );
}

fn main() {
    let words: Vec<String> = env::args().skip(1).collect();
    let all = series::all();
    if let [first, number, line, side] = &words[..]
        && first == ONE_CALL
    {
        let number: usize = number.parse().expect("a number");
        let lines = match all.get(number) {
            Some(series) => lines_of(series),
            None => {
                let call = EntryPoint::ALL[number - all.len()];
                let named = known(call).into_iter().filter(|one| one.name == *line);
                named.map(|one| self::line(one.name, call, &one.input)).collect()
            }
        };
        return measure::make_one_call(lines, line, side);
    }
    let wanted: Vec<&String> = words.iter().filter(|word| !word.starts_with("--")).collect();
    let is_wanted = |call: EntryPoint| wanted.is_empty() || wanted.iter().any(|word| call.name() == **word);
    let grown: Vec<(usize, &Series)> =
        all.iter().enumerate().filter(|(_, series)| is_wanted(series.call)).collect();
    let calls = EntryPoint::ALL.into_iter().enumerate().filter(|(_, call)| is_wanted(*call));
    let mut lines: Vec<Line> = grown.iter().flat_map(|(_, series)| lines_of(series)).collect();
    let first_longest = lines.len();
    let (calls, longest): (Vec<(usize, EntryPoint)>, Vec<Line>) =
        calls.filter_map(|(number, call)| Some(((all.len() + number, call), longest(call)?))).unzip();
    lines.extend(longest);
    let least = least_times(&mut lines);
    println!(
        "| Call | Inputs | Up to | 1/16, ns | 1/8, ns | 1/4, ns | 1/2, ns | All, ns | Plain Rust, ns | Ratio | Instructions | Plain Rust, \
         instructions | Ratio | Grows as the power | By definition |"
    );
    println!("|---|---|---|{}", "---:|".repeat(12));
    let (lines, longest) = lines.split_at(first_longest);
    let (times, longest_times) = least.split_at(first_longest);
    let (mut panels, mut named) = (Vec::new(), Vec::new());
    for ((number, series), (lines, times)) in
        grown.into_iter().zip(lines.chunks(SIZES).zip(times.chunks(SIZES)))
    {
        let (panel, name) = print_series(number, series, lines, times);
        panels.push(panel);
        named.extend(name);
    }
    println!();
    println!("| Call | Longest construction | Library, ns | Plain Rust, ns | Ratio | Library, instructions | Plain Rust, instructions | Ratio |");
    println!("|---|---|{}", "---:|".repeat(6));
    for ((number, call), (line, times)) in calls.into_iter().zip(longest.iter().zip(longest_times)) {
        print_longest(number, call, line, *times);
    }
    println!();
    match &named[..] {
        [] => println!("None grows faster than its definition says."),
        _ => println!("These grow faster than their definitions say: {}.", named.join("; ")),
    }
    if wanted.is_empty() {
        let path = Path::new(env!("CARGO_MANIFEST_DIR")).join("../../docs/pictures/growth.svg");
        fs::write(&path, picture::drawn(&panels)).expect("the picture is written");
        println!("\nThe picture is docs/pictures/growth.svg.");
    }
}

//! Times and instructions of calls; shared by the benchmarks.

pub mod calls;

use std::env;
use std::hint::black_box;
use std::process::Command;
use std::time::{Duration, Instant};

/// Batches of each side, taken in turn; the fastest of each is kept.
const BATCHES: usize = 15;
const BATCH: Duration = Duration::from_millis(4);

pub type Call = Box<dyn FnMut()>;

/// Takes what a call made, whatever it is, as if it were needed.
pub fn keep<T>(made: T) {
    let _ = black_box(made);
}

/// A line of a table: its input and its call, and what each side does for it.
pub struct Line {
    pub name: String,
    pub sides: Vec<Call>,
}

/// Asks this program for one call alone: the table's number, the line and the side's number follow.
pub const ONE_CALL: &str = "--one-call";

/// The function whose instructions are counted.
#[inline(never)]
// SAFETY: no other function has this name.
#[unsafe(no_mangle)]
fn counted_call(call: &mut dyn FnMut()) {
    call();
}

pub fn make_one_call(lines: Vec<Line>, name: &str, side: &str) {
    let side: usize = side.parse().expect("a side's number");
    let mut line = lines.into_iter().find(|line| line.name == name).expect("a line");
    counted_call(&mut line.sides[side]);
}

/// The instructions of one call, by this program run anew under valgrind; none where valgrind is missing.
pub fn instructions(table: &str, line: &str, side: usize) -> Option<u64> {
    let output = Command::new("valgrind")
        .args(["--tool=callgrind", "--callgrind-out-file=/dev/null", "--toggle-collect=counted_call"])
        .arg(env::current_exe().ok()?)
        .args([ONE_CALL, table, line, &side.to_string()])
        .output()
        .ok()?;
    let said = String::from_utf8_lossy(&output.stderr).into_owned();
    said.lines().find_map(|part| part.split_once("Collected :")?.1.trim().parse().ok())
}

/// How often a call fits into one batch.
fn repeats(call: &mut Call) -> u32 {
    let start = Instant::now();
    let mut repeats = 0;
    while start.elapsed() < BATCH {
        call();
        repeats += 1;
    }
    repeats
}

/// Nanoseconds a call.
fn batch(call: &mut Call, repeats: u32) -> f64 {
    let start = Instant::now();
    for _ in 0..repeats {
        call();
    }
    start.elapsed().as_secs_f64() * 1e9 / f64::from(repeats)
}

/// The times of each side in nanoseconds.
pub fn times(line: &mut Line) -> Vec<f64> {
    let repeats: Vec<u32> = line.sides.iter_mut().map(repeats).collect();
    let mut best = vec![f64::MAX; line.sides.len()];
    for _ in 0..BATCHES {
        for (k, call) in line.sides.iter_mut().enumerate() {
            best[k] = best[k].min(batch(call, repeats[k]));
        }
    }
    best
}

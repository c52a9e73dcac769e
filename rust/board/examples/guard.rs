//! What the example firmware does in each tick besides the tick, by the bytes of a part, as the table in controller/README.md: the
//! longest of what the plugin counted in the files PROCESSOR.PART of the folder that COUNTS names. controller/count/count runs it.

use std::{env, fs};

use board::{milliseconds, with_commas, Count};
use interface::TABLE;

/// The bytes of a part's sum, and of what stands beside all of these.
const SUM: usize = 4;
const BESIDE: usize = 8;

fn longest(processor: &str, part: usize) -> f64 {
    let path = format!("{}/{processor}.{part}", env::var("COUNTS").expect("controller/count/count sets it"));
    let lines = fs::read_to_string(path).expect("the plugin wrote it");
    let cycles = lines.lines().map(|line| Count::read(line).slow_cycles).max().expect("it counted");
    milliseconds(cycles)
}

fn main() {
    println!("| Bytes of a part | Ticks, of the longest table | Bytes of memory | Cortex-M3, ms a tick | Cortex-M0, ms a tick |");
    println!("|---:|---:|---:|---:|---:|");
    for word in env::args().skip(1) {
        let part: usize = word.parse().expect("the bytes of a part");
        let parts = TABLE.div_ceil(part);
        let (larger, smaller) = (longest("thumbv7m", part), longest("thumbv6m", part));
        let memory = with_commas((SUM * parts + BESIDE) as u64);
        println!("| {part} | {parts} | {memory} | {larger:.2} | {smaller:.2} |");
    }
}

//! What the board executes in each call, as the plugin of controller/count tells it.

use std::env;
use std::fs::File;
use std::io::{BufRead, BufReader};

use crate::Board;
use interface::Library;

/// What was counted in one call.
#[derive(Clone, Copy, Debug, PartialEq, Eq)]
pub struct Count {
    pub instructions: u64,
    pub cycles: u64,
    /// With a multiplier that takes 32 cycles for a product of 32 bits, as a Cortex-M0 may have.
    pub slow_cycles: u64,
}

impl Count {
    /// By a plain model: a cycle an instruction, one more for an access to memory, two for a jump, six for a division, three
    /// for a long product; a Cortex-M0 has neither of the last two.
    pub fn read(line: &str) -> Count {
        let numbers: Vec<u64> = line.split(' ').map(|word| word.parse().expect("a number")).collect();
        let [instructions, accesses, jumps, divisions, products, short_products] = numbers[..] else {
            panic!("six numbers a line: {line}")
        };
        let cycles = instructions + accesses + 2 * jumps + 6 * divisions + 3 * products;
        Count { instructions, cycles, slow_cycles: cycles + 31 * short_products }
    }
}

/// At 16 MHz.
pub fn milliseconds(cycles: u64) -> f64 {
    cycles as f64 / 16_000.0
}

pub fn with_commas(number: u64) -> String {
    let digits = number.to_string();
    let comma = |(at, digit): (usize, char)| {
        let more = if at > 0 && (digits.len() - at).is_multiple_of(3) { "," } else { "" };
        format!("{more}{digit}")
    };
    digits.chars().enumerate().map(comma).collect()
}

/// Whether the processor that BOARD names is also made with the slow multiplier.
pub fn may_be_slow() -> bool {
    env::var("BOARD").is_ok_and(|processor| processor.starts_with("thumbv6m"))
}

/// A board whose calls are counted.
pub struct Counting<'a> {
    board: Board<'a>,
    path: String,
    lines: Option<BufReader<File>>,
}

impl<'a> Counting<'a> {
    /// Starts the board with the processor that BOARD names and the plugin that PLUGIN names, which writes to the file that
    /// COUNTS names: controller/count/count sets them.
    pub fn start(instead: &'a dyn Library) -> Counting<'a> {
        let setting = |name| env::var(name).expect("controller/count/count sets it");
        let full = |name| env::current_dir().expect("there is one").join(setting(name)).display().to_string();
        let (path, plugin) = (full("COUNTS"), full("PLUGIN"));
        let words = ["-plugin", &format!("{plugin},to={path}")];
        let board = Board::start(&setting("BOARD"), &words, instead).expect("the emulator starts");
        Counting { board, path, lines: None }
    }

    /// Makes one call on the board, and hands back with its outcome what it took.
    pub fn counted<T>(&mut self, call: impl FnOnce(&Board) -> T) -> (T, Count) {
        let before = self.board.notes();
        let made = call(&self.board);
        let after = self.board.notes();
        assert_eq!(
            (after.calls, after.too_large),
            (before.calls + 1, before.too_large),
            "one call, made there"
        );
        (made, self.next())
    }

    /// The plugin has begun its file before the board's first answer, and written a call's line before its answer.
    fn next(&mut self) -> Count {
        let lines = self
            .lines
            .get_or_insert_with(|| BufReader::new(File::open(&self.path).expect("the plugin wrote it")));
        let mut line = String::new();
        lines.read_line(&mut line).expect("it can be read");
        Count::read(line.trim_end())
    }
}

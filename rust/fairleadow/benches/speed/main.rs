//! The library against plain Rust written for speed, on the same inputs in one run. `cargo bench --offline` prints seven
//! tables, of calls on texts, of those on slow charts and images, of little charts, of counts of how often the stack fills, of long runs
//! by the rows that a tick looks at, of long runs with prices, and of live calls; a ratio below 1 means that the library takes less, or
//! that a priced run takes less than one without prices. Where valgrind is at hand, instructions are counted too. A word after `--` picks
//! the lines that have it.

mod fillings;
mod little;
mod live;
#[path = "../measure/mod.rs"]
mod measure;
mod prices;
mod rows;
mod table;
mod texts;

use std::env;

use measure::Line;

/// The names of a table's sides, and its lines.
type Table = (&'static [&'static str], fn() -> Vec<Line>);

const TABLES: [Table; 7] = [
    (&["Library", "Plain Rust"], texts::lines),
    (&["Library", "Plain Rust"], texts::slow_lines),
    (&["Library", "Plain Rust"], little::lines),
    (&["Library", "Plain Rust"], fillings::lines),
    (&rows::SIDES, rows::lines),
    (&prices::SIDES, prices::lines),
    (&["Library", "Plain Rust, kept", "Plain Rust on the table"], live::lines),
];

fn main() {
    let words: Vec<String> = env::args().skip(1).collect();
    if let [first, table, line, side] = &words[..]
        && first == measure::ONE_CALL
    {
        let number: usize = table.parse().expect("a table's number");
        return measure::make_one_call(TABLES[number].1(), line, side);
    }
    let wanted = |line: &str| words.iter().all(|word| word.starts_with("--") || line.contains(word));
    for (number, (sides, lines)) in TABLES.iter().enumerate() {
        if number > 0 {
            println!();
        }
        table::print_table(number, sides, lines(), wanted);
    }
}

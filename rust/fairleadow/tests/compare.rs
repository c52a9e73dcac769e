//! The proved library against the reference. FAIRLEADOW_SEED and FAIRLEADOW_CASES choose the inputs.

use comparison::compare::compare;
use proved::Proved;

const SEED: u64 = 1;
const CASES: u64 = 400_000;

fn setting(name: &str, otherwise: u64) -> u64 {
    match std::env::var(name) {
        Ok(value) => value.parse().unwrap_or_else(|_| panic!("{name} is no number: {value}")),
        Err(_) => otherwise,
    }
}

#[test]
fn the_library_agrees_with_the_reference() {
    let seed = setting("FAIRLEADOW_SEED", SEED);
    let cases = setting("FAIRLEADOW_CASES", CASES);
    match compare(&Proved, seed, cases) {
        Ok(summary) => println!("seed {seed}, {cases} cases, each call's answers:\n{summary}"),
        Err(difference) => panic!("{difference}"),
    }
}

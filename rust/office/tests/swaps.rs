//! Schemes that are swapped in a trace.

mod shared;

use shared::{example, run, Ran};

fn traced(chart: &str, rest: &[&str]) -> Ran {
    let chart = example(chart);
    run(&[&["trace", chart.as_str()], rest].concat())
}

/// The lines of the table, without its heading.
fn rows(ran: &Ran) -> Vec<&str> {
    let table = ran.printed.lines().skip(3);
    table.take_while(|line| !line.is_empty()).collect()
}

/// A scheme is swapped between two blocks, and in the middle of one, as the examples have it.
#[test]
fn a_swap_serves_later_calls() {
    let words = "0,0,4,0,0,0,0,0,0,4,4,0,0,0,0,0,0,0,4,0,0";
    for (name, swaps) in [("between", "7:2=3"), ("middle", "3:2=3,11:2=2")] {
        let ran = traced("swapped.txt", &["--words", words, "--swap", swaps]);
        assert_eq!((ran.status, ran.said.as_str()), (0, ""));
        let expected = example(&format!("swapped.{name}.trace"));
        assert_eq!(ran.printed, std::fs::read_to_string(expected).expect("the example's trace"));
    }
}

/// A swap by the names of its schemes is the one by their numbers.
#[test]
fn schemes_are_swapped_by_their_names() {
    let rows_of = |swap: &str| {
        let ran = traced("swapped.txt", &["--words", "0,0,4,0,0,0,0,0,0,0,0", "--swap", swap]);
        assert_eq!((ran.status, ran.said.as_str()), (0, ""));
        rows(&ran).into_iter().map(String::from).collect::<Vec<String>>()
    };
    assert_eq!(rows_of("3:roughing=finer"), rows_of("3:2=3"));
    assert_eq!(rows_of("3:s2=finer,5:2=roughing"), rows_of("3:2=3,5:2=2"));
    let ran = traced("swapped.txt", &["--words", "0,0,0,0", "--swap", "3:rouging=finer"]);
    let told = "no scheme is named 'rouging'; 'roughing' is near to it\nusage: ";
    assert!(ran.status == 2 && ran.said.starts_with(told), "{}", ran.said);
}

#[test]
fn swaps_that_cannot_be_made_are_told() {
    let swapped = |swap: &str| traced("swapped.txt", &["--words", "0,0,4,0", "--swap", swap]);
    for swap in ["3:2=4", "3:1=2", "0:2=1", "3:17=2"] {
        let ran = swapped(swap);
        assert_eq!((ran.status, ran.printed.as_str()), (1, ""), "{swap}");
        let told = format!("the swap {swap}: this number cannot be given to that scheme");
        assert!(ran.said.contains(&told) && ran.said.contains("refusal 22"), "{}", ran.said);
    }
    let ran = traced("full_stack.txt", &["--words", "0", "--swap", "0:3=2"]);
    assert!(ran.status == 1 && ran.said.contains("refusal 22"), "{}", ran.said);
    for (swap, told) in [
        ("2=3", "'2=3' is no swap: write TICK:NUMBER=SCHEME, such as 4:2=3"),
        ("4:2=3", "the swap 4:2=3 comes after the last tick, 3"),
    ] {
        let ran = swapped(swap);
        assert!(ran.status == 2 && ran.said.starts_with(told), "{}", ran.said);
    }
}

//! The command bill: what it prints, also where a refusal ends the run, and what is told of prices that it cannot read.

mod shared;

use comparison::generate::{images, prices, runs, Random};
use fairleadow::Refusal;
use office::bill::Bill;
use office::subject::Subject;
use reference::check::chart_of;
use reference::frames::text_of;
use reference::price::price;
use reference::walk::walk;
use shared::{example, file, run, Ran};

const WORDS: &str = "0,0,4,0,4,0,4,0,0,0,0,0,0,0,0,0,0";

fn billed(chart: &str, prices: &str, rest: &[&str]) -> Ran {
    run(&[&["bill", chart, "--prices", prices], rest].concat())
}

/// A file of prices of this test's own.
fn list(name: &str, text: &str) -> String {
    file(name, text.as_bytes()).to_string_lossy().into_owned()
}

#[test]
fn the_example_has_its_bill() {
    let ran = billed(&example("roughing.txt"), &example("roughing.prices"), &["--words", WORDS]);
    assert_eq!((ran.status, ran.said.as_str()), (0, ""));
    assert_eq!(ran.printed, std::fs::read_to_string(example("roughing.bill")).expect("the example's bill"));
}

/// The same run of the chart's lines and of its image, which have no names.
#[test]
fn without_names_outputs_go_by_their_numbers() {
    let prices = list("numbered.prices", "y0 150\ny1 35\ny2 225\ny3 30\n");
    for name in ["roughing.chart", "roughing.image"] {
        let ran = billed(&example(name), &prices, &["--words", WORDS]);
        assert_eq!((ran.status, ran.said.as_str()), (0, ""));
        let expected = format!(
            "{name}: stack of 32 places; words {WORDS}; prices numbered.prices

output  ticks on  cents a tick  cents
y0             7          1.50  10.50
y1             3          0.35   1.05
y2             3          2.25   6.75
y3             4          0.30   1.20
sum                             19.50

17 ticks, to pay: 20 cents
"
        );
        assert_eq!(ran.printed, expected);
    }
}

#[test]
fn a_run_that_is_stopped_is_billed_as_far_as_it_came() {
    let ran =
        billed(&example("roughing.txt"), &example("roughing.prices"), &["--words", WORDS, "--places", "3"]);
    assert_eq!(ran.status, 1);
    assert_eq!(ran.said, format!("{}: ended by refusal 17 after 5 ticks\n", example("roughing.txt")));
    let expected = "roughing.txt: stack of 3 places; words 0,0,4,0,4,0,4,0,0,0,0,0,0,0,0,0,0; prices roughing.prices

output     ticks on  cents a tick  cents
spindle           2          1.50   3.00
feed              1          0.35   0.35
cutter_in         1          2.25   2.25
sum                                 5.60

5 ticks, to pay: 6 cents

after 5 ticks a call finds the stack full
  refusal 17: a call needs a free place of the stack, or a handler that is not at the bottom of it
  look for: a chart that calls itself, for which no number of places is enough whatever the words: more places (32 at most), \
                    words by which it calls less deep, or a handler, which starts when the stack is full
";
    assert_eq!(ran.printed, expected);
}

/// The row for word 1 of label 3 is taken out of the image.
#[test]
fn an_image_without_a_row_is_billed_as_far_as_it_came() {
    let image = std::fs::read_to_string(example("paper.image")).expect("an example");
    let without = image
        .replace("0F020400040000000000E7", "0F020400030000000000E8")
        .replace("12030001000102040000E3\n", "");
    let image = list("few_rows.image", &without);
    let ran = billed(&image, &list("few_rows.prices", "y0 49\n"), &["--words", "0,0,1,0"]);
    assert_eq!(ran.status, 1);
    assert_eq!(ran.said, format!("{image}: ended by refusal 18 after 2 ticks\n"));
    let told =
        "2 ticks, to pay: 0 cents\n\nafter 2 ticks no row of the label matches the word\n  refusal 18: ";
    assert!(ran.printed.contains("y0             1          0.49   0.49\n"), "{}", ran.printed);
    assert!(ran.printed.contains(told), "{}", ran.printed);
}

/// What has no line in the list costs nothing, and is named all the same; what was never on is not.
#[test]
fn what_has_no_price_costs_nothing() {
    let prices = list("one.prices", "feed 100 # and nothing else\ny9 65535\n");
    let ran = billed(&example("roughing.txt"), &prices, &["--words", "0,0,4,0"]);
    assert_eq!((ran.status, ran.said.as_str()), (0, ""));
    let table = "
output     ticks on  cents a tick  cents
spindle           2          0.00   0.00
feed              1          1.00   1.00
cutter_in         1          0.00   0.00
sum                                 1.00

4 ticks, to pay: 1 cent
";
    assert!(ran.printed.ends_with(table), "{}", ran.printed);
    let ran = billed(&example("home.chart"), &list("y0.prices", "y0 5\n"), &["--words", "0", "--ticks", "2"]);
    let table = "\noutput  ticks on  cents a tick  cents\nsum                              0.00\n";
    assert!(ran.printed.contains(table) && ran.printed.ends_with("\n2 ticks, to pay: 0 cents\n"));
}

#[test]
fn as_many_ticks_as_there_may_be() {
    let text =
        "output 31 all\nscheme 1\nbegin -> on\non: do all -> again\nagain: if x0 then on else end\nend\n";
    let (chart, prices) = (list("long.txt", text), list("long.prices", "all 65535\n"));
    let ran = billed(&chart, &prices, &["--words", "1", "--ticks", "65536"]);
    assert_eq!((ran.status, ran.said.as_str()), (0, ""));
    let line = "all       65,535        655.35  42,948,362.25\n";
    assert!(ran.printed.contains(line), "{}", ran.printed);
    assert!(ran.printed.ends_with("\n65,536 ticks, to pay: 42,948,362 cents\n"), "{}", ran.printed);
    let ran = billed(&chart, &prices, &["--words", "1", "--ticks", "65537"]);
    assert_eq!((ran.status, ran.printed.as_str()), (1, ""));
    let told = "there are too many words for one price\n  refusal 27: a run that is priced has at most 65,536 words\n";
    assert!(ran.said.starts_with(&format!("{chart}: {told}")), "{}", ran.said);
}

#[test]
fn prices_that_cannot_be_read_are_told_with_their_line() {
    let faults = [
        ("spindle 150\nfeeed 35\n", "line 2, column 1: no output is named 'feeed'; 'feed' is near to it"),
        ("spindle 1.50\n", "line 1, column 9: '1.50' is no price"),
        ("spindle 150\n\nspindle 140\n", "line 3, column 1: 'spindle' has a price already (line 1)"),
        ("feed 65536\n", "line 1, column 6: '65536' is more than 65535, the highest price"),
        ("feed\n", "line 1, column 5: 'feed' has no price"),
        ("# none yet\n", "there is no price in it"),
    ];
    for (at, (text, told)) in faults.into_iter().enumerate() {
        let prices = list(&format!("fault{at}.prices"), text);
        let ran = billed(&example("roughing.txt"), &prices, &[]);
        assert_eq!((ran.status, ran.printed.as_str()), (1, ""), "{text}");
        assert!(ran.said.starts_with(&format!("{prices}: {told}\n")), "{}", ran.said);
    }
    // the chart's lines have no names
    let ran = billed(&example("roughing.chart"), &example("roughing.prices"), &[]);
    let told =
        "line 2, column 1: no output is named 'spindle'\n    spindle      150\n    ^\n  look for: this chart";
    assert!(ran.status == 1 && ran.said.contains(told), "{}", ran.said);
    let ran = billed(&example("roughing.txt"), &example("no.prices"), &[]);
    assert_eq!((ran.status, ran.said), (1, format!("{}: there is no such file\n", example("no.prices"))));
}

#[test]
fn wrong_calls_are_told() {
    let (chart, prices) = (example("roughing.txt"), example("roughing.prices"));
    for (args, told) in [
        (vec!["bill", &chart], "--prices FILE is missing\nusage: fairleadow bill CHART --prices FILE "),
        (
            vec!["bill", &chart, "--prices", &prices, "--words", "0", "--swap", "1:2=2"],
            "the swap 1:2=2 comes after",
        ),
        (vec!["bill", "-", "--prices", "-"], "chart and prices cannot both be standard input\n"),
        (
            vec!["bill", &chart, "--prices", "-", "--words", "-"],
            "words and prices cannot both be standard input\n",
        ),
        (vec!["bill", &chart, "--prices", &prices, "--ticks", "0"], "--ticks takes 1 to 100000\n"),
    ] {
        let ran = run(&args);
        assert_eq!((ran.status, ran.printed.as_str()), (2, ""), "{args:?}");
        assert!(ran.said.starts_with(told), "{}", ran.said);
    }
    let ran = billed(&chart, &prices, &["--places", "33"]);
    assert!(ran.status == 1 && ran.said.contains("refusal 14"), "{}", ran.said);
}

/// Each part from swap to swap is priced as a run by itself, and a swap right before the first tick parts nothing.
#[test]
fn swaps_part_a_bill() {
    let prices = list("parts.prices", "feed 30\nspindle 25\n");
    let words = "0,0,4,0,0,0,0,0,0,4,4,0,0,0";
    let by = |swaps: &str| billed(&example("swapped.txt"), &prices, &["--words", words, "--swap", swaps]);
    let ran = by("0:2=3");
    assert!(ran.status == 0 && !ran.printed.contains("each part"), "{}{}", ran.printed, ran.said);
    let ran = by("7:2=3,7:2=2,9:2=3");
    assert_eq!((ran.status, ran.said.as_str()), (0, ""));
    let whole = by("0:2=2").printed;
    let sum = |text: &str| text.lines().find(|line| line.starts_with("sum")).map(str::to_string);
    // until the next call the same scheme is open
    assert_eq!(sum(&by("13:2=3").printed), sum(&whole));
    let (_, parts) = ran.printed.split_once("rounded by itself:\n").expect("parts");
    let counts: Vec<&str> = parts.lines().map(|line| line.split(':').next().unwrap_or("")).collect();
    assert_eq!(counts, ["  7 ticks from tick 0", "  2 ticks from tick 7", "  5 ticks from tick 9"]);
    let cents = |line: &str| line.split(' ').rev().nth(1).and_then(|cents| cents.parse::<usize>().ok());
    let paid: usize = parts.lines().filter_map(cents).sum();
    assert!(ran.printed.contains(&format!("14 ticks, to pay: {}\n", office::problem::counted(paid, "cent"))));
    let ran = by("7:2=9");
    assert!(ran.status == 1 && ran.said.contains("the swap 7:2=9"), "{}", ran.said);
}

/// What is to be paid is the price of the walk's ticks, for any chart, words and prices.
#[test]
fn random_charts_cost_what_their_walk_costs() {
    let mut stopped = 0;
    for seed in 0..400 {
        let random = &mut Random::new(seed);
        let (records, _) = images::translated(random);
        let (places, words, prices) = (random.within(1, 4), runs::words(random, 50), prices::list(random));
        let subject = Subject::read(text_of(&records)).expect("a valid chart");
        let bill = Bill::of(&subject, places, prices, &words, &[]).expect("it has a price");
        let ticks = walk(&chart_of(&records).expect("a valid chart"), places, &words);
        let finished = bill.answer.unwrap_or_else(Refusal::ticks);
        let masks: Vec<u32> = ticks.iter().take(finished).map(|tick| tick.mask).collect();
        let to_pay = office::problem::counted(price(&prices, &masks) as usize, "cent");
        let names = office::names::Names::default();
        assert!(bill.report(&names).ends_with(&format!(", to pay: {to_pay}\n")), "seed {seed}");
        stopped += usize::from(matches!(bill.answer, Err(Refusal::Full { .. })));
    }
    assert!(stopped > 50, "{stopped}");
}

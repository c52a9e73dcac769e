//! Interlocks of the notation: what is decided of the examples and of random charts, against plain searches; and what is no interlock.

mod shared;

use std::fmt::Write;
use std::fs;

use comparison::generate::{charts, runs, Random};
use office::check::checked;
use office::interlocks::told;
use office::notation::Notation;
use office::plan::Plan;
use office::source::from_notation;
use reference::chart::Chart;
use reference::check::chart_of;
use reference::frames::text_of;
use reference::image::Image;
use reference::{translator, Library, Reference};
use shared::{example, file, run};

fn read(name: &str) -> String {
    fs::read_to_string(example(name)).expect("an example")
}

/// An example with interlocks above its first scheme.
fn with(name: &str, interlocks: &str) -> String {
    read(name).replacen("\nscheme 1", &format!("{interlocks}\n\nscheme 1"), 1)
}

fn found(text: &str) -> Result<Vec<String>, String> {
    let plan = from_notation(text).and_then(Plan::read).expect("an accepted chart");
    told(&plan).map_err(|problem| problem.words)
}

#[test]
fn interlocks_of_one_tick_are_decided_over_the_labels() {
    for (name, interlock, said) in [
        ("roughing.txt", "never cutter_in with cutter_back", Ok("line 8: 'never cutter_in with cutter_back' holds: no node puts out both")),
        ("branches.txt", "always clamp while spindle", Ok("line 9: 'always clamp while spindle' holds: each node that puts out spindle puts out clamp")),
        (
            "swapped.txt",
            "always clamp while spindle",
            Err("line 12, column 1: 'always clamp while spindle' does not hold: cut (line 23), touch (line 29) and lift (line 30) put out \
                 spindle without clamp"),
        ),
        (
            "roughing.txt",
            "always spindle while y9",
            Ok("line 8: 'always spindle while y9' holds: no node puts out y9"),
        ),
        ("roughing.txt", "never feed with spindle", Err("line 8, column 1: 'never feed with spindle' does not hold: cut (line 20) puts out both")),
    ] {
        let own = found(&with(name, interlock));
        assert_eq!(own, said.map(|line| vec![line.to_string()]).map_err(String::from), "{name}");
    }
}

#[test]
fn interlocks_of_an_order_are_tried_on_the_machine() {
    let states = |text: &str| found(text).expect("it holds").remove(0);
    let held = states(&with("branches.txt", "retract only after clamp"));
    assert!(
        held.starts_with(
            "line 9: 'retract only after clamp' holds in every run on a stack of any size without swaps: all "
        ) && held.ends_with(" states that the machine can come to were tried"),
        "{held}"
    );
    let held = states(&with("full_stack.txt", "feed only after spindle"));
    assert!(
        held.contains(" holds in every run on each stack of 1 to 32 places without swaps: all "),
        "{held}"
    );
    assert_eq!(
        found(&with("full_stack.txt", "cutter_back only after feed")),
        Err("line 9, column 1: 'cutter_back only after feed' does not hold: by the words 0,0,0,0,0 tick 4 puts out cutter_back at clear \
             (line 14), and no tick before it since the last home tick puts out feed"
            .to_string())
    );
    // on one place the first call drops to the handler before anything is fed
    assert_eq!(
        found(&with("full_stack.txt", "feed_stop only after feed")),
        Err("line 9, column 1: 'feed_stop only after feed' does not hold: by the words 0,0,0 on a stack of 1 place tick 2 puts out feed_stop \
             at back (line 26), and no tick before it since the last home tick puts out feed"
            .to_string())
    );
    assert_eq!(found(&with("bore.txt", "drill only after probe_down")).map(|lines| lines.len()), Ok(1));
    // once a round: what was on before the last home tick does not count
    let rounds = "condition 0 second\noutput 0 a\noutput 1 b\nb only after a\n\nscheme 1\nbegin -> ask\nask: if second then two else one\n\
                  one: do a -> end\ntwo: do b -> end\nend\n";
    assert_eq!(
        found(rounds),
        Err("line 4, column 1: 'b only after a' does not hold: by the words 0,1,0 tick 2 puts out b at two (line 10), and no tick before \
             it since the last home tick puts out a"
            .to_string())
    );
}

/// A chart that counts in the results of its functions has more states than are tried.
#[test]
fn what_is_not_decided_is_said_so() {
    let mut text = String::from("output 0 a\noutput 1 b\nb only after a\n\nscheme 1\nbegin -> c0\n");
    for scheme in 2..=16 {
        let next = if scheme == 16 { "last".to_string() } else { format!("c{}", scheme - 1) };
        writeln!(text, "c{}: do nothing; call s{scheme} -> {next}", scheme - 2).unwrap();
    }
    text.push_str("last: do a -> after\nafter: do b -> end\nend\n");
    for scheme in 2..=16 {
        writeln!(text, "\nscheme {scheme}\nbegin -> q{scheme}\nq{scheme}: do nothing -> d{scheme}\nd{scheme}: if x{} then y{scheme} else n{scheme}", scheme - 1).unwrap();
        writeln!(text, "y{scheme}: write 1 -> end\nn{scheme}: write 0 -> end\nend").unwrap();
    }
    let lines = found(&text).expect("nothing that breaks it is met");
    assert_eq!(
        lines,
        ["line 3: 'b only after a' is not decided: it holds in the runs to the first 100,000 states that the machine comes to, and there \
          are more"]
    );
}

#[test]
fn check_tells_interlocks_with_their_place() {
    let good = file(
        "good_locks.txt",
        with("roughing.txt", "never cutter_in with cutter_back\ncutter_in only after spindle").as_bytes(),
    );
    let ran = run(&["check", good.to_str().expect("a path")]);
    assert_eq!((ran.status, ran.said.as_str()), (0, ""));
    let lines: Vec<&str> = ran.printed.lines().collect();
    assert!(
        lines[1].starts_with("  interlock: line 8: 'never ")
            && lines[2].starts_with("  interlock: line 9: 'cutter_in only after spindle' holds"),
        "{}",
        ran.printed
    );
    let bad = with(
        "roughing.txt",
        "  always feed while spindle # not so\nnever feed with spindle\nnever cutter_in with cutter_back",
    );
    let bad = file("bad_locks.txt", bad.as_bytes()).to_string_lossy().into_owned();
    let ran = run(&["check", &bad]);
    assert_eq!((ran.status, ran.printed.as_str()), (1, ""));
    let told = "\
bad_locks.txt: line 8, column 3: 'always feed while spindle' does not hold: start (line 14) and retract (line 23) put out spindle without feed
  line 9, column 1: 'never feed with spindle' does not hold: cut (line 22) puts out both
      always feed while spindle # not so
      ^
  look for: an output that is missing, one too many, or on too early; the chart itself is accepted, and all other commands take it
";
    assert!(ran.said.ends_with(told), "{}", ran.said);
    // the chart is the same without them
    let lines = run(&["compose", &bad]);
    assert_eq!((lines.status, lines.printed), (0, read("roughing.chart")));
    let shown = run(&["show", &bad]).printed;
    assert!(shown.contains("\nalways feed while spindle  # not so\nnever feed with spindle\nnever cutter_in with cutter_back\n"), "{shown}");
}

#[test]
fn what_is_no_interlock_is_told_with_its_place() {
    for (line, column, words) in [
        ("never feed with feed", 17, "'feed' stands on both sides"),
        ("never feed with clamp", 17, "no output is named 'clamp'"),
        ("always feeed while spindle", 8, "no output is named 'feeed'; 'feed' is near to it"),
        ("never feed and spindle", 12, "'and', where 'with' belongs"),
        ("always feed with spindle", 13, "'with', where 'while' belongs"),
        ("feed only spindle", 11, "'spindle', where 'after' belongs"),
        ("never with feed", 12, "'feed', where 'with' belongs"),
        ("never feed with", 16, "the line ends, where the name of an output belongs"),
        ("feed only after spindle, cutter_in", 24, "',' after the end of the statement"),
        ("never y1 with y32", 15, "no output is named 'y32'"),
    ] {
        let problem = checked(with("roughing.txt", line).as_bytes()).expect_err("no interlock");
        assert_eq!((problem.line, problem.column), (Some(8), Some(column)), "{line}: {problem}");
        assert_eq!(problem.words, format!("line 8, column {column}: {words}"));
    }
    // the first words take no names away
    let names = "output 0 never\noutput 1 only\nnever never with only\n\nscheme 1\nbegin -> never\nnever: do never -> always\nalways: do only -> end\nend\n";
    assert_eq!(found(names).map(|lines| lines.len()), Ok(1));
}

/// A random chart in the notation with some interlocks, and its image by the reference.
fn random_chart(random: &mut Random, interlocks: usize) -> (Chart, Image, String) {
    loop {
        let records = charts::chart(random);
        let chart = chart_of(&records).expect("a chart");
        let Ok(image) = translator::image_of(&chart) else { continue };
        let mut text = String::new();
        // outputs that are put out, mostly
        let used: Vec<u32> = image
            .labels
            .iter()
            .flat_map(|label| (0..32).filter(move |bit| label.mask >> bit & 1 == 1))
            .collect();
        if used.len() < 2 {
            continue;
        }
        for _ in 0..interlocks {
            let (one, other) = (random.pick(&used), random.pick(&used));
            if one != other {
                let line = match random.below(2) {
                    0 => format!("never y{one} with y{other}"),
                    _ => format!("always y{one} while y{other}"),
                };
                text.push_str(&(line + "\n"));
            }
        }
        let bytes: Vec<u8> = records.concat();
        return (chart, image, text + &Notation::of_records(&bytes).layout());
    }
}

#[test]
fn random_charts_have_the_interlocks_that_a_plain_search_finds() {
    let (mut good, mut bad) = (0, 0);
    for seed in 0..2_000 {
        let random = &mut Random::new(seed);
        let (_, image, text) = random_chart(random, 3);
        let notation = Notation::parse(&text).expect("the notation");
        assert_eq!(notation.layout(), text);
        let broken = |line: &str| {
            let words: Vec<&str> = line.split(' ').collect();
            let bit = |word: &str| word[1..].parse::<u32>().expect("a number");
            let (one, other) = (bit(words[1]), bit(words[3]));
            image.labels.iter().skip(2).any(|label| {
                let on = |bit: u32| label.mask >> bit & 1 == 1;
                if words[0] == "never" {
                    on(one) && on(other)
                } else {
                    on(other) && !on(one)
                }
            })
        };
        let locks: Vec<&str> = text.lines().take_while(|line| !line.starts_with("scheme")).collect();
        let wanted: Vec<&&str> = locks.iter().filter(|line| broken(line)).collect();
        match found(&text) {
            Ok(lines) => {
                assert!(wanted.is_empty() && lines.len() == locks.len(), "{seed} {lines:?}");
                good += lines.len();
            }
            Err(words) => {
                assert_eq!(words.lines().count(), wanted.len(), "{seed} {words}");
                assert!(
                    wanted.iter().all(|line| words.contains(&format!("'{line}' does not hold: "))),
                    "{seed} {words}"
                );
                bad += wanted.len();
            }
        }
    }
    assert!(good > 200 && bad > 1_000, "{good} {bad}");
}

/// The first tick of a run of the reference that puts out one output before the other since the last home tick.
fn first_broken(image: &[u8], size: usize, words: &[u16], late: u32, early: u32) -> Option<usize> {
    let mut state = Reference.fresh(size).expect("a good size");
    let mut was_on = false;
    for (number, word) in words.iter().enumerate() {
        let ticked = Reference.tick(image, &mut state, *word).ok()?;
        if ticked.mask >> late & 1 == 1 && !was_on {
            return Some(number);
        }
        was_on = ticked.code != 0x04 && (was_on || ticked.mask >> early & 1 == 1);
    }
    None
}

#[test]
fn random_charts_keep_the_order_in_runs_or_break_it_by_the_words_told() {
    let (mut held, mut broken, mut open) = (0, 0, 0);
    for seed in 0..400 {
        let random = &mut Random::new(seed);
        let (_, image, text) = random_chart(random, 0);
        let used: Vec<u32> = image
            .labels
            .iter()
            .flat_map(|label| (0..32).filter(move |bit| label.mask >> bit & 1 == 1))
            .collect();
        let (late, early) = (random.pick(&used), random.pick(&used));
        if late == early {
            continue;
        }
        let image = text_of(&image.frames());
        match found(&format!("y{late} only after y{early}\n{text}")) {
            Ok(lines) if lines[0].contains(" holds in every run ") => {
                for _ in 0..40 {
                    let words = runs::words(random, 40);
                    assert_eq!(first_broken(&image, 32, &words, late, early), None, "{seed}");
                }
                held += 1;
            }
            Ok(lines) => {
                assert!(lines[0].contains(" is not decided: "), "{lines:?}");
                open += 1;
            }
            Err(words) => {
                let (_, rest) = words.split_once("by the words ").expect("words");
                let (list, rest) = rest.split_once(' ').expect("a space");
                let list: Vec<u16> = list.split(',').map(|word| word.parse().expect("a word")).collect();
                let size = rest
                    .strip_prefix("on a stack of ")
                    .map_or(32, |rest| rest.split(' ').next().expect("a size").parse().expect("a size"));
                assert_eq!(
                    first_broken(&image, size, &list, late, early),
                    Some(list.len() - 1),
                    "{seed} {words}"
                );
                broken += 1;
            }
        }
    }
    println!("{held} {broken} {open}");
    assert!(held > 20 && broken > 100, "{held} {broken} {open}");
}

/// With any byte of an interlock changed the chart is checked, or what is wrong is told with its place.
#[test]
fn a_damaged_interlock_is_told_with_its_place() {
    let line = "never cutter_in with cutter_back\ncutter_in only after spindle";
    let text = with("roughing.txt", line);
    let start = text.find("never").expect("the interlock");
    let (mut fine, mut told) = (0, 0);
    for (at, byte) in (start..start + line.len()).flat_map(|at| (0..=255).map(move |byte| (at, byte))) {
        let mut damaged = text.clone().into_bytes();
        damaged[at] = byte;
        match checked(&damaged) {
            Ok(_) => fine += 1,
            Err(problem) => {
                assert!(problem.line.is_some() && !problem.is_internal(), "{problem}");
                told += 1;
            }
        }
    }
    assert!(fine > 50 && told > 10_000, "{fine} {told}");
}

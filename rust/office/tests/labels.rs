//! Images as they are listed, run, drawn and put on a page: labels and rows in place of nodes and arcs, with a chart's names where its
//! labels are the image's.

mod shared;

use std::collections::{BTreeMap, BTreeSet};
use std::fs;

use comparison::generate::{images, runs, Random};
use office::image::Image;
use office::labels::drawing::drawing;
use office::labels::run::{places, run as run_labels, LabelRun};
use office::labels::table::never_taken;
use office::plan::Plan;
use office::source::{from_bytes, from_either};
use office::subject::Subject;
use office::trace::swaps::Swap;
use reference::frames::text_of;
use reference::{Library, Reference, State};
use shared::browser::installed;
use shared::{example, file, run, Ran};

const EXAMPLES: [&str; 9] =
    ["bore", "branches", "finishing", "full_stack", "home", "paper", "roughing", "swapped", "two_blocks"];

fn read(name: &str) -> String {
    fs::read_to_string(example(name)).expect("an example")
}

#[test]
fn the_listing_of_an_image() {
    let ran = run(&["show", &example("patched/roughing.image"), "--names", &example("roughing.txt")]);
    assert_eq!((ran.status, ran.said.as_str()), (0, ""));
    let expected = "\
# an image of 2 schemes, 7 labels and 8 rows

scheme 1 (shaping) begins at start
  label 2 (start): do spindle; call roughing
    at start go to clear
  label 3 (clear): do cutter_back
    at clear go to end

scheme 2 (roughing) begins at 4
  label 4: do nothing
    at 4 when not wood go to end
    at 4 when wood go to cut
    at 4 when wood and x7 go to end
    at 4 when wood and x6 go to retract
  label 5 (cut): do spindle, feed, cutter_in; call roughing
    at cut go to retract
  label 6 (retract): do spindle, cutter_back
    at retract go to end
";
    assert_eq!(ran.printed, expected);
    let ran = run(&["show", &example("full_stack.image")]);
    assert!(
        ran.printed.contains("\nscheme 3, the handler, begins at 7\n  label 7: do y0, y3, y10\n"),
        "{}",
        ran.printed
    );
    let ran = run(&["show", &example("bore.image")]);
    assert!(
        ran.printed.contains("  label 2: call s2, read its result\n    at 2 when result 0 go to 3\n"),
        "{}",
        ran.printed
    );
}

/// The table of an image has that of its chart, with labels in place of nodes.
#[test]
fn an_image_is_traced_as_its_chart() {
    for name in EXAMPLES {
        let (chart, image) = (example(&format!("{name}.txt")), example(&format!("{name}.image")));
        let words = ["--words", "random:3", "--ticks", "40", "--places", "3"];
        let of_chart = run(&[&["trace", &chart], &words[..]].concat());
        let of_image = run(&[&["trace", &image, "--names", &chart], &words[..]].concat());
        let without = run(&[&["trace", &image], &words[..]].concat());
        assert_eq!([of_image.status, without.status], [of_chart.status; 2], "{name}: {}", of_image.said);
        let table = |ran: &Ran| -> Vec<Vec<String>> {
            let lines = ran.printed.lines().skip(2).take_while(|line| !line.is_empty());
            let cells = |line: &str| {
                line.split("  ").map(str::trim).filter(|cell| !cell.is_empty()).map(String::from).collect()
            };
            lines.map(cells).collect()
        };
        let (chart_rows, image_rows, plain_rows) = (table(&of_chart), table(&of_image), table(&without));
        assert_eq!(chart_rows.len(), image_rows.len(), "{name}");
        assert_eq!(image_rows[0][4], "label");
        for ((chart, image), plain) in chart_rows.iter().zip(&image_rows).zip(&plain_rows).skip(1) {
            let (label, node) = image[4].split_once(' ').expect("a label and its node");
            assert_eq!(node, chart[4], "{name}");
            assert_eq!(plain[4].split(' ').next(), Some(label));
            let others = |row: &[String]| [&row[..4], &row[5..]].concat();
            assert_eq!(others(chart), others(image), "{name}");
        }
    }
}

/// A patched image: a row that no word reaches, and a label that has none for a word.
#[test]
fn a_run_tells_its_rows_and_a_word_without_one() {
    let image = example("patched/roughing.image");
    let ran = run(&["trace", &image, "--words", "0,0,0x84,0,0,0"]);
    assert_eq!((ran.status, ran.said.as_str()), (0, ""));
    let after: Vec<&str> = ran.printed.lines().skip_while(|line| !line.contains("never taken")).collect();
    let wanted = [
        "6 ticks; never taken: 2 of 7 labels, 5 of 8 rows",
        "  label 5 of s2",
        "  label 6 of s2",
        "  row 2, at 4 when not x2 go to end",
        "  row 3, at 4 when x2 go to 5",
        "  row 5, at 4 when x2 and x6 go to 6",
        "  row 6, at 5 go to 6",
        "  row 7, at 6 go to end",
    ];
    assert_eq!(after, wanted);
    let less = file("less_rows.patch", b"remove at 4 when x2\n");
    let out = file("less_rows.image", b"").to_string_lossy().into_owned();
    assert_eq!(run(&["patch", &image, less.to_str().expect("a path"), "-o", &out]).status, 0);
    let ran = run(&["trace", &out, "--words", "0,0,4"]);
    assert_eq!(ran.status, 1);
    assert!(ran.said.ends_with("less_rows.image: ended by refusal 18 after 2 ticks\n"), "{}", ran.said);
    let told = "tick 2, word 0x0004, label 4 of scheme 2: none of its rows matches\n  refusal 18: ";
    assert!(ran.printed.contains(told), "{}", ran.printed);
    let ran = run(&["trace", &example("roughing.image"), "--places", "2", "--words", "0,0,4,4,4"]);
    let told = "tick 3, word 0x0004, label 5 of scheme 2: the call of s2 finds the stack full, all 2 places in use (2: s1 > s2)\n";
    assert!(ran.status == 1 && ran.printed.contains(told), "{}", ran.printed);
}

/// The ticks of images of all sorts are the reference's, and so are the rows that they take.
#[test]
fn random_images_run_as_the_reference_has_them() {
    let (mut rows, mut stops) = (0, BTreeMap::new());
    for seed in 0..3_000 {
        let random = &mut Random::new(seed);
        let plain = if seed % 2 == 0 { images::accepted(random) } else { images::small(random) };
        let text = text_of(&plain.frames());
        let Ok(image) = Image::read(text.clone()) else { continue };
        let (words, size) = (runs::words(random, 24), 1 + random.below(4));
        let schemes = plain.entries.len();
        let mut swaps = Vec::new();
        if schemes > 1 && random.once_in(2) {
            let number = random.within(2, schemes);
            if number != usize::from(plain.handler) {
                swaps.push(Swap { tick: random.below(24), number, scheme: random.within(2, schemes) });
            }
        }
        let Ok(run) = run_labels(&image, size, &words, &swaps) else { panic!("{seed}") };
        let mut state = Reference.fresh(size).expect("a good size");
        for (number, word) in words.iter().enumerate() {
            for swap in swaps.iter().filter(|swap| swap.tick == number) {
                assert_eq!(Reference.rebind(&text, &mut state, swap.number, swap.scheme), Ok(0));
            }
            let before: State = state;
            let ticked = Reference.tick(&text, &mut state, *word);
            let Some(tick) = run.ticks.get(number) else {
                let stopped = run.stopped.as_ref().expect("a refusal");
                assert_eq!(Some(stopped.refusal), ticked.err().map(|refusal| refusal.after(number)));
                *stops.entry(stopped.refusal.number()).or_insert(0) += 1;
                break;
            };
            let ticked = ticked.expect("as the library has it");
            assert_eq!(
                (tick.mask, tick.code, tick.results),
                (ticked.mask, ticked.code, state.results),
                "{seed}"
            );
            let cause = Reference.cause(&text, &before, *word);
            assert_eq!(tick.row, cause.ok().map(|cause| cause.row), "{seed} {number}");
            let open: Vec<u8> = tick.stack.iter().map(|open| open.label).collect();
            assert_eq!(open, before.places[..usize::from(before.depth)]);
            rows += usize::from(tick.row.is_some());
        }
        held(&image, &run);
    }
    assert!(rows > 10_000 && stops[&17] > 100 && stops[&18] > 100, "{rows} {stops:?}");
}

/// What was never taken is what no tick took, and a drawing has everything once.
fn held(image: &Image, run: &LabelRun) {
    let subject = Subject::without_names(image.clone());
    let taken: BTreeSet<u16> = run.ticks.iter().filter_map(|tick| tick.row).collect();
    let labels: BTreeSet<u8> = run.ticks.iter().map(|tick| tick.open().label).collect();
    let told = never_taken(&subject, run);
    let count = |start: &str| told.iter().filter(|line| line.starts_with(start)).count();
    assert_eq!(count("  row "), image.rows().count() - taken.len());
    assert_eq!(count("  label "), image.labels() - labels.len());
    let text = drawing(&subject, Some(run), "");
    assert_eq!(text.matches("[id=\"r").count(), image.rows().count());
    assert_eq!(
        text.matches("[id=\"l").count() + text.matches("[id=\"e").count(),
        places(image).len() + calls(&text)
    );
    assert_eq!(text.matches("class=\"arc taken\"").count(), taken.len());
}

fn calls(text: &str) -> usize {
    text.matches("class=\"call ").count()
}

#[test]
fn an_image_is_drawn_and_put_on_a_page() {
    let (chart, image) = (example("swapped.txt"), example("swapped.image"));
    let words = ["--words", "0,0,4,0,0,0,0,0,0,0,0", "--swap", "3:roughing=finer"];
    let ran = run(&[&["draw", &image, "--names", &chart, "--trace"], &words[..]].concat());
    assert_eq!((ran.status, ran.said.as_str()), (0, ""));
    for part in [
        "    l5 -> l5 [id=\"r4\", class=\"arc taken\", penwidth=2.2, label=\" wood \"];",
        "label=\" not wood \"",
        "    l2 -> b3 [id=\"l2_call_3\", class=\"call taken\"",
        "<B>5 cut</B>",
        "graph [label=\"scheme roughing\"",
        "swapped.image: an image of 8 labels and 8 rows in 3 schemes;",
        "11 ticks; never taken: 0 of 8 labels, 1 of 8 rows",
    ] {
        assert!(ran.printed.contains(part), "{part}\n{}", ran.printed);
    }
    let ran = run(&["draw", &example("full_stack.image")]);
    assert!(ran.printed.contains("xlabel=\"when the stack is full\""), "{}", ran.printed);
    if !installed("dot") {
        return println!("left out: dot is not installed");
    }
    let ran = run(&["draw", &image, "--names", &chart, "--svg"]);
    assert_eq!((ran.status, ran.said.as_str()), (0, ""));
    for title in [
        "<title>at cut when wood go to cut</title>",
        "<title>End of finer</title>",
        "<title>label 6 touch of finer</title>",
    ] {
        assert!(ran.printed.contains(title), "{title}");
    }
    let ran = run(&[&["page", &image, "--names", &chart, "-o", "-"], &words[..]].concat());
    assert_eq!((ran.status, ran.said.as_str()), (0, ""));
    let page = ran.printed;
    assert_eq!(page.matches("<tr id=\"tick-").count(), 11);
    for part in [
        "<dt>at label</dt>",
        "<h2>Labels</h2>",
        "<td>2 block</td>",
        "data-serving=\"blocks&#10;finer for roughing\"",
        "data-why=\"it left node cut",
    ] {
        assert!(page.contains(part), "{part}");
    }
    // each place and line that a tick lights is in the drawing, and each place has its row
    for tick in page.split("<tr id=\"tick-").skip(1) {
        let list = |name: &str| {
            tick.split_once(&format!("{name}=\"")).expect("a list").1.split('"').next().expect("its end")
        };
        for id in list("data-stack").split(' ') {
            assert!(
                page.contains(&format!("<g id=\"{id}\"")) && page.contains(&format!("<tr id=\"node-{id}\"")),
                "{id}"
            );
        }
        for id in list("data-lines").split(' ').filter(|id| !id.is_empty()) {
            assert!(page.contains(&format!("<g id=\"{id}\"")), "{id}");
        }
    }
}

/// Names are given where the labels are the chart's, in every command that tells names, and refused elsewhere.
#[test]
fn names_are_those_of_a_chart_whose_labels_the_image_has() {
    let (chart, image) = (example("roughing.txt"), example("patched/roughing.image"));
    let prices = example("roughing.prices");
    for (arguments, told) in [
        (vec!["trace"], "5 cut"),
        (vec!["why", "--words", "0,0,4"], "(wood)"),
        (vec!["bill", "--prices", &prices], "cutter_in"),
        (vec!["fillings"], "wood"),
        (vec!["draw"], "cutter_in"),
        (vec!["show"], "label 5 (cut)"),
    ] {
        let call = |names: &str, file: &str| {
            let (command, rest) = arguments.split_first().expect("a command");
            run(&[&[*command, file, "--names", names], rest].concat())
        };
        let ran = call(&chart, &image);
        assert!(ran.printed.contains(told), "{arguments:?} {}", ran.said);
        let ran = call(&example("bore.txt"), &image);
        assert_eq!((ran.status, ran.printed.as_str()), (1, ""), "{arguments:?}");
        let told = "roughing.image: this is an image; its labels are not the chart's: label 2 says 'do y0; call s2', and the chart's \
                    'call s2, read its result'\n";
        assert!(ran.said.contains(told), "{}", ran.said);
        let ran = call(&chart, &example("branches.smaller"));
        assert!(
            ran.said.contains("it has 7 labels in 1 scheme, and the chart's image 7 labels in 2 schemes\n"),
            "{}",
            ran.said
        );
        let ran = call(&image, &image);
        assert!(
            ran.status == 1
                && ran.said.contains("roughing.image: this is an image; a chart is asked for here\n"),
            "{}",
            ran.said
        );
        let ran = call(&chart, &chart);
        assert!(
            ran.said.contains("roughing.txt: this is the readable notation; --names goes with an image\n"),
            "{}",
            ran.said
        );
        let ran = call("-", "-");
        assert!(
            ran.status == 2 && ran.said.contains(" and names cannot both be standard input\n"),
            "{}",
            ran.said
        );
    }
}

/// A label of another scheme, and one that does something else, is none of the chart's; rows and entries may be others.
#[test]
fn random_images_have_names_where_no_label_differs() {
    let (mut given, mut refused) = (0, 0);
    for seed in 0..1_000 {
        let random = &mut Random::new(seed);
        let (records, mut image) = images::translated(random);
        let plan = Plan::read(from_bytes(&text_of(&records))).expect("a chart");
        let changed = random.once_in(2) && image.labels.len() > 2;
        if changed {
            let label = random.within(2, image.labels.len() - 1);
            match random.below(3) {
                0 => image.labels[label].mask ^= 1 << random.below(32),
                1 => image.labels[label].result = (image.labels[label].result + 1) % 3,
                _ => drop(image.labels.pop()),
            }
        }
        image.rows.clear();
        image.entries.iter_mut().enumerate().for_each(|(scheme, entry)| *entry = u8::from(scheme > 0));
        let image = Image::read(text_of(&image.frames())).expect("an accepted image");
        match Subject::with_names(image, plan) {
            Ok(_) => {
                assert!(!changed, "{seed}");
                given += 1;
            }
            Err(problem) => {
                assert!(changed && problem.words.starts_with("this is an image; "), "{problem}");
                refused += 1;
            }
        }
    }
    assert!(given > 300 && refused > 300, "{given} {refused}");
}

/// The commands that take charts alone say what they were given.
#[test]
fn where_a_chart_is_asked_for_an_image_is_named() {
    let image = example("paper.image");
    for (command, told) in [
        ("places", "this is an image; the places needed are told of a chart, by the calls of its schemes\n"),
        ("translate", "this is an image; a chart is asked for here\n"),
        ("compose", "this looks like an image, not like the readable notation\n"),
    ] {
        let ran = run(&[command, &image]);
        assert_eq!((ran.status, ran.printed.as_str()), (1, ""));
        assert!(
            ran.said.starts_with(&format!("{image}: {told}")) && ran.said.contains("\n  look for: "),
            "{}",
            ran.said
        );
    }
    assert!(from_either(read("paper.image").as_bytes()).is_err());
}

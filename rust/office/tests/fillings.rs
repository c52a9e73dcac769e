//! The command fillings: its table for chart P, for a handler and for a patched image, which lists it chooses, and what is refused.

mod shared;

use fairleadow::{Library, Proved, Refusal};
use office::fillings::{Drawing, Lists};
use office::image::Image;
use office::subject::Subject;
use reference::check::chart_of;
use reference::fillings::walked;
use reference::frames::{frames_of, CHART_TEXT};
use reference::Reference;
use shared::{example, file, run, Ran};

fn printed(args: &[&str]) -> String {
    let ran = run(&[&["fillings"], args].concat());
    assert_eq!((ran.status, ran.said.as_str()), (0, ""), "{args:?}");
    ran.printed
}

/// The first line, and those of the stacks.
fn title(args: &[&str]) -> String {
    printed(args).lines().next().expect("a line").to_string()
}

/// A line of a stack that no list fills.
fn empty(places: std::ops::RangeInclusive<usize>) -> String {
    places.map(|places| format!("{places:6}               0                0.0 %\n")).collect()
}

#[test]
fn chart_p_has_its_drawing() {
    let begun = "paper.chart: 256 lists of 8 words; x0 at 0 or 1, all others at 0

places  fill the stack  share that fills it
     1             256              100.0 %  ##################################################
     2             192               75.0 %  ######################################
     3              64               25.0 %  #############
     4              32               12.5 %  #######
";
    let ended = "\nnone of 256 lists of 8 words fills a stack of 5 places or more, up to 32\n";
    let expected = format!("{begun}{}{ended}", empty(5..=32));
    assert_eq!(printed(&[&example("paper.chart"), "--ticks", "8", "--conditions", "1"]), expected);
    let image = printed(&[&example("paper.image"), "--conditions", "1", "--ticks", "8"]);
    assert_eq!(image, expected.replace("paper.chart", "paper.image"));
}

/// With a handler no list is stopped; those that drop are counted beside, and the share is theirs.
#[test]
fn a_drop_is_no_end_and_is_counted() {
    let drawn = printed(&[&example("full_stack.txt")]);
    let begun = "full_stack.txt: 32,768 lists of 5 words; x0, x1 and wood at 0 or 1, all others at 0

places  fill the stack    drop  share that finds it full
     1               0  32,768                   100.0 %  ##################################################
     2               0  16,384                    50.0 %  #########################
     3               0       0                     0.0 %
";
    assert!(drawn.starts_with(begun), "{drawn}");
    let ended = "\nnone of 32,768 lists of 5 words fills any of these stacks; from 3 places on none drops\n";
    assert!(drawn.ends_with(ended), "{drawn}");
    // wood is never asked, so none goes deeper
    let drawn = printed(&[&example("full_stack.txt"), "--ticks", "16", "--conditions", "1"]);
    assert!(
        drawn.ends_with(
            "\nnone of 65,536 lists of 16 words fills any of these stacks; from 2 places on none drops\n"
        ),
        "{drawn}"
    );
}

/// Lists that drop, and lists that find the stack full, by ticking each of them.
#[test]
fn drops_are_those_of_the_lists() {
    let text = "scheme 1\nbegin -> a\na: call s2 -> end\nend\nscheme 2\nbegin -> b\nb: do nothing -> c\n\
                c: if x0 then d else end\nd: call s2 -> end\nend\nscheme 3\nbegin when the stack is full -> e\n\
                e: if x1 then f else end\nf: call s2 -> end\nend\n";
    let path = file("drops.txt", text.as_bytes());
    let subject = Subject::read(text.as_bytes().to_vec()).expect("a chart");
    let drawn = printed(&[&path.to_string_lossy(), "--ticks", "7", "--conditions", "2"]);
    for places in 1..=5 {
        let mut found = [0; 3];
        for list in 0..1u32 << 14 {
            let mut state = Proved.fresh(places).expect("a good size");
            let (mut dropped, mut full) = (false, false);
            for tick in 0..7 {
                let word = (list >> (2 * tick) & 3) as u16;
                let ticked = Proved.tick(&subject.image.text, &mut state, word);
                full |= matches!(ticked, Err(Refusal::Full { .. }));
                dropped |= ticked.is_ok_and(|ticked| ticked.code == 0x60);
                if full {
                    break;
                }
            }
            for (count, met) in found.iter_mut().zip([full, dropped, full || dropped]) {
                *count += usize::from(met);
            }
        }
        let row = drawn.lines().nth(2 + places).expect("a row");
        let cells: Vec<String> = row.split_whitespace().map(|cell| cell.replace(',', "")).collect();
        let [full, dropped, found_full] = found;
        assert_eq!(cells[1..3], [full.to_string(), dropped.to_string()], "{row}");
        let share = found_full as f64 / 163.84;
        assert!((cells[3].parse::<f64>().expect("a share") - share).abs() < 0.06, "{row}: {share}");
    }
}

/// Chart P without the row of its condition at 1: half of the lists find no row at the third word, on all stacks but the first.
#[test]
fn a_patched_image_tells_what_finds_no_row() {
    let image = std::fs::read_to_string(example("paper.image")).expect("the example");
    let lines: Vec<&str> = image.lines().collect();
    let patched: Vec<String> = lines
        .iter()
        .filter(|line| !line.starts_with("1203000100010204"))
        .map(|line| line.replace("0F020400040000000000E7", "0F020400030000000000E8"))
        .collect();
    assert_eq!(patched.len() + 1, lines.len());
    let path = file("no_row.image", format!("{}\n", patched.join("\n")).as_bytes());
    let drawn = printed(&[&path.to_string_lossy(), "--ticks", "4", "--conditions", "1"]);
    let lines: Vec<&str> = drawn.lines().collect();
    let begun = [
        "no_row.image: 16 lists of 4 words; x0 at 0 or 1, all others at 0",
        "",
        "places  fill the stack  find no row  share that fills it",
        "     1              16            0              100.0 %  ##################################################",
        "     2               0            8                0.0 %",
    ];
    assert_eq!(lines[..5], begun);
    assert_eq!(lines[34], "    32               0            8                0.0 %");
}

/// What is not given is chosen so that the lists can be counted.
#[test]
fn lists_are_chosen() {
    let (roughing, home) = (example("roughing.txt"), example("home.txt"));
    for (args, wanted) in [
        (vec![roughing.as_str()], "32,768 lists of 5 words; x0, x1 and wood at 0 or 1, all others at 0"),
        (
            vec![&roughing, "--ticks", "8"],
            "65,536 lists of 8 words; x0 and x1 at 0 or 1, all others at 0 (tested too: wood)",
        ),
        (vec![&roughing, "--ticks", "17"], "1 list of 17 words; all conditions at 0 (tested too: wood)"),
        (vec![&roughing, "--ticks", "0"], "1 list of 0 words; x0, x1 and wood at 0 or 1, all others at 0"),
        (
            vec![&roughing, "--conditions", "2"],
            "65,536 lists of 8 words; x0 and x1 at 0 or 1, all others at 0 (tested too: wood)",
        ),
        (
            vec![&roughing, "--conditions", "0"],
            "1 list of 65,536 words; all conditions at 0 (tested too: wood)",
        ),
        (vec![&home], "1 list of 65,536 words; all conditions at 0"),
    ] {
        let name = if args[0] == home { "home.txt" } else { "roughing.txt" };
        assert_eq!(title(&args), format!("{name}: {wanted}"));
    }
}

#[test]
fn every_list_may_fill_every_stack() {
    let chart =
        b"00010001000000000000FE\n02010202000000000001F8\n01010000000000000000FE\n00020004000000000000FA\n\
        02020205000000000002F3\n01020000000000000000FD\n";
    let path = file("deep.chart", chart).to_string_lossy().into_owned();
    let drawn = printed(&[&path, "--ticks", "40", "--conditions", "0"]);
    assert!(drawn.starts_with("deep.chart: 1 list of 40 words; all conditions at 0\n\n"), "{drawn}");
    assert_eq!(drawn.matches(" 100.0 %  ####").count(), 32, "{drawn}");
    assert!(drawn.ends_with("\nlists fill a stack of 32 places too\n"), "{drawn}");
    // home and 31 calls, or one less
    for (ticks, told) in [("32", "32 places"), ("31", "31 places or more, up to 32")] {
        let drawn = printed(&[&path, "--ticks", ticks, "--conditions", "0"]);
        let none = format!("\nnone of 1 list of {ticks} words fills a stack of {told}\n");
        assert!(drawn.ends_with(&none), "{drawn}");
    }
}

/// The examples drawn by the library and by the reference are the same, and those of charts are what the walk says.
#[test]
fn examples_are_drawn_as_the_reference_counts() {
    for name in ["paper", "roughing", "full_stack", "bore", "branches", "finishing", "swapped", "two_blocks"]
    {
        let text = std::fs::read(example(&format!("{name}.image"))).expect("an example");
        let image = Image::accepted(text);
        let lists = Lists::of(&image, None, None);
        let lists = Lists { ticks: lists.ticks.min(10 / lists.conditions.max(1)), ..lists };
        let drawn =
            |library: &dyn Library| Drawing::of(library, &image, lists).map(|drawing| drawing.report());
        let wanted = drawn(&Reference).expect("few lists");
        assert_eq!(drawn(&Proved).as_ref(), Ok(&wanted), "{name}");
        let records = std::fs::read(example(&format!("{name}.chart"))).expect("an example");
        let chart = chart_of(&frames_of(&records, CHART_TEXT).expect("lines")).expect("a chart");
        for (places, line) in (1..=4).zip(wanted.lines().skip(1)) {
            let full = walked(&chart, places, lists.ticks, lists.conditions);
            let cells: Vec<&str> = line.split_whitespace().take(2).collect();
            assert_eq!(cells.concat().replace(',', ""), format!("{places}{full}"), "{name}: {line}");
        }
    }
}

#[test]
fn what_cannot_be_counted_is_refused() {
    let chart = example("paper.chart");
    for (ticks, conditions) in [("17", "1"), ("0", "17"), ("65537", "0"), ("18446744073709551615", "2")] {
        let Ran { printed, said, status } =
            run(&["fillings", &chart, "--ticks", ticks, "--conditions", conditions]);
        assert_eq!((status, printed.as_str()), (1, ""));
        let told = "there are too many lists to count, or their words are too many\n  refusal 28: lists of words are counted";
        assert!(
            said.starts_with(&format!("{chart}: {told}")) && said.contains("\n  look for: fewer"),
            "{said}"
        );
    }
    let bad =
        file("sum.chart", b"00010001000000000000FF\n01010000000000000000FE\n").to_string_lossy().into_owned();
    let ran = run(&["fillings", &bad]);
    assert!(ran.status == 1 && ran.said.contains("refusal 3"), "{}", ran.said);
    assert!(Subject::read(b"".to_vec()).is_err());
}

#[test]
fn a_wrong_call_is_told() {
    let usage =
        "usage: fairleadow fillings CHART [--ticks N] [--conditions K] [--names CHART] [--format FORMAT]\n";
    for (args, words) in [
        (vec![], "a chart is missing"),
        (vec!["x", "--ticks"], "--ticks needs a value"),
        (vec!["x", "--ticks", "two"], "--ticks takes a number, not two"),
        (vec!["x", "--places", "3"], "no option --places"),
    ] {
        let Ran { printed, said, status } = run(&[&["fillings"], &args[..]].concat());
        assert_eq!((status, printed.as_str(), said), (2, "", format!("{words}\n{usage}")));
    }
}

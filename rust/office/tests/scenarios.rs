//! Scenarios: each rule of the notation, the names of a list of words, and what is told of a file that is none.

mod shared;

use std::path::Path;

use shared::called::fairleadow;
use shared::{example, file, run, Ran};

/// A chart with a name for all that a scenario can name, some of them words of the scenario's own.
const CHART: &str = "\
condition 0 places
condition 1 swap
condition 2 wood
output 0 node
output 1 not
output 2 drill
scheme 1 main
       begin -> start
start: do node; call sub -> ask
ask:   if swap then both else end
both:  do not, drill -> end
       end
scheme 2 sub
       begin -> at
at:    do drill -> end
       end
scheme 3 other
       begin -> of
of:    do not -> end
done:  end
";

/// A scenario on that chart, in a file of this case's own.
fn played(name: &str, scenario: &str, command: &str, more: &[&str]) -> Ran {
    let chart = file(&format!("{name}.txt"), CHART.as_bytes()).to_string_lossy().into_owned();
    let scenario = file(&format!("{name}.scenario"), scenario.as_bytes()).to_string_lossy().into_owned();
    let given = match command {
        "test" => vec!["test", &chart, &scenario],
        command => vec![command, &chart, "--scenario", &scenario],
    };
    run(&[&given, more].concat())
}

/// The column of the table with the words.
fn words(ran: &Ran) -> Vec<String> {
    let table = ran.printed.lines().skip(3).take_while(|line| !line.is_empty());
    table.map(|line| line.split_whitespace().nth(1).expect("a word").to_string()).collect()
}

/// The lines about differences of a scenario that is tested.
fn differences(name: &str, scenario: &str) -> Vec<String> {
    let ran = played(name, scenario, "test", &[]);
    let lines: Vec<String> =
        ran.printed.lines().skip(1).take_while(|line| !line.is_empty()).map(String::from).collect();
    assert_eq!(ran.status, i32::from(!lines.is_empty()), "{}{}", ran.printed, ran.said);
    lines.into_iter().map(|line| line.trim_start().to_string()).collect()
}

#[test]
fn words_go_by_names_in_a_list_a_file_and_a_scenario() {
    let chart = example("finishing.txt");
    let wanted = words(&run(&["trace", &chart, "--words", "0,2,2,2,18,16,0,8"]));
    let list = "-, start_key*3, start_key+end_of_travel, x4,0,x3";
    assert_eq!(words(&run(&["trace", &chart, "--words", list])), wanted);
    let lines = list.replace(',', "\n").replace("start_key*3", "start_key * 3  # three");
    for (option, name) in [("--words", "names.words"), ("--scenario", "names.scenario")] {
        let lines = file(name, lines.as_bytes()).to_string_lossy().into_owned();
        let ran = run(&["trace", &chart, option, &lines]);
        assert_eq!((words(&ran), ran.status), (wanted.clone(), 0), "{option}: {}", ran.said);
    }
    // by numbers as before, and on a chart without names
    let ran = run(&["trace", &example("finishing.chart"), "--words", "-,x1*3,x1+x4,16,-,0x8"]);
    assert_eq!(words(&ran), wanted);
    // a scenario that is given as a file of words is told
    let scenario = example("bore.scenario");
    let ran = run(&["trace", &example("bore.txt"), "--words", &scenario]);
    let told = "line 2: 'places 2' is no name of a condition\n  look for: a scenario, which is given by --scenario\n";
    assert!(ran.status == 1 && ran.said.ends_with(told), "{}", ran.said);
    // - alone is standard input
    let (status, printed, _) = fairleadow(&["trace", &chart, "--words", "-"], b"start_key\n- * 2\n");
    assert!(status == 0 && printed.contains("\n3 ticks; "), "{printed}");
}

#[test]
fn a_list_that_cannot_be_read_is_told() {
    let chart = example("roughing.txt");
    for (list, told) in [
        ("wood,wod", "no condition is named 'wod'; 'wood' is near to it"),
        (
            "wod",
            "there is no file wod, and in the words wod: no condition is named 'wod'; 'wood' is near to it",
        ),
        ("0,wod", "in the words 0,wod: no condition is named 'wod'; 'wood' is near to it"),
        ("wood+wood", "'wood' stands twice"),
        ("wood+1", "'1' is no name of a condition"),
        ("wood+", "'' is no name of a condition"),
        ("wood*0", "'0', where a number from 1 to 65536 belongs after *"),
        ("wood*", "'', where a number from 1 to 65536 belongs after *"),
        ("wood*65537", "'65537', where a number from 1 to 65536 belongs after *"),
        ("wood*65536,-", "a list has at most 65,536 words"),
        ("x16", "no condition is named 'x16'"),
        ("wood-on", "'wood-on' is no name of a condition"),
    ] {
        let ran = run(&["trace", &chart, "--words", list]);
        assert_eq!((ran.status, ran.printed.as_str()), (2, ""), "{list}");
        assert!(ran.said.lines().next().is_some_and(|line| line.ends_with(told)), "{list}: {}", ran.said);
    }
    let ran = run(&["trace", &chart, "--words", "wood*65536"]);
    let full = "ended by refusal 17 after 63 ticks";
    assert!(ran.status == 1 && ran.said.contains(full), "{}", ran.said);
    let ran = run(&["trace", &example("home.txt"), "--words", "x2*65535,-"]);
    assert!(
        ran.status == 0 && ran.printed.contains("\n65536 ticks; ")
            || ran.printed.contains("\n65,536 ticks; ")
    );
    assert!(ran.printed.starts_with("home.txt: 2 nodes in 1 scheme; stack of 32 places; words x2*65535,-\n"));
}

/// A list of names goes before a file of that name, which ./ leads to.
#[test]
fn a_file_whose_name_could_be_a_list_is_led_to() {
    let folder = Path::new(env!("CARGO_TARGET_TMPDIR"));
    file("wood", b"0\n0\n0\n");
    file("timber", b"0\n0\n");
    let ticks = |words: &str| {
        let chart = example("roughing.txt");
        let ran = shared::ran(shared::program(&["trace", &chart, "--words", words]).current_dir(folder));
        self::words(&ran).len()
    };
    assert_eq!((ticks("wood"), ticks("./wood"), ticks("timber")), (1, 3, 2));
}

#[test]
fn each_sign_is_held_against_the_tick() {
    let lines = [
        ("-; expect nothing, node end of main, code home, code 04, not drill", ""),
        ("-; expect only node, code call sub, code 12, output node, not not, node start", ""),
        ("-; expect drill, only drill, node at of sub, code plain, code 00, not node", ""),
        ("swap + wood; expect code return, code 03, node end of sub, nothing", ""),
        ("-; expect only not, drill, node both; expect at last drill", ""),
    ];
    let scenario: String = lines.iter().map(|(line, _)| format!("{line}\n")).collect();
    assert_eq!(differences("signs", &scenario), [] as [String; 0]);
    let wrong = "\
-; expect node, node start, code 12, refusal 17
-; expect not node, nothing, code call other, code drop, node at
-; expect not, only node
-; expect not node, at last nothing
";
    let wanted = [
        "line 1, tick 0, node end of main: expected node on, and it is off",
        "line 1, tick 0, node end of main: expected node start of main, and it is end of main",
        "line 1, tick 0, node end of main: expected code 12, and it is 04, home",
        "line 1, tick 0, node end of main: expected refusal 17, and the tick was made",
        "line 2, tick 1, node start of main: expected nothing, and on: node",
        "line 2, tick 1, node start of main: expected node off, and it is on",
        "line 2, tick 1, node start of main: expected code call other, and it is 12, call sub",
        "line 2, tick 1, node start of main: expected code drop, and it is 12, call sub",
        "line 2, tick 1, node start of main: expected node at of sub, and it is start of main",
        "line 3, tick 2, node at of sub: expected only node, not, and on: drill",
        "line 4, tick 3, node end of sub: expected node, and nothing is on",
    ];
    assert_eq!(differences("wrong_signs", wrong), wanted[..10]);
}

/// What is expected of a step is expected of each tick of it, and after `at last` of its last.
#[test]
fn a_step_expects_something_of_each_tick_or_of_its_last() {
    assert_eq!(
        differences("each", "- * 3; expect not drill, at last node at of sub, drill\n"),
        ["line 1, tick 2, node at of sub: expected drill off, and it is on"]
    );
    assert_eq!(
        differences("last", "- * 2; expect at last node\n- * 2; expect at last nothing; expect node\n"),
        [
            "line 2, tick 2, node at of sub: expected node on, and it is off",
            "line 2, tick 3, node end of sub: expected node on, and it is off",
        ]
    );
    // ticks in a row that differ alike are told once
    assert_eq!(differences("row", "- * 3\n- * 60; expect nothing\n").len(), 30);
    let waiting = file("row.txt", b"condition 0 go\nscheme 1\nbegin -> if_go\nif_go: if go then end else wait\nwait: do y0 -> wait\nend\n");
    let row = file("row.scenario", b"- * 20; expect not y0\n");
    let ran = run(&["test", &waiting.to_string_lossy(), &row.to_string_lossy()]);
    let line = "  line 1, ticks 2 to 19, node wait of s1: expected y0 off, and it is on\n";
    assert!(ran.printed.contains(line), "{}", ran.printed);
}

#[test]
fn a_step_goes_on_until_a_sign_is_seen() {
    let nodes = |name: &str, scenario: &str| {
        let ran = played(name, scenario, "trace", &[]);
        assert_eq!((ran.status, ran.said.as_str()), (0, ""), "{}", ran.printed);
        words(&ran)
            .iter()
            .map(|word| word.trim_start_matches("0x000").to_string())
            .collect::<Vec<String>>()
            .concat()
    };
    // end, start, at, end, end: at least one tick, and the one that shows the sign is the last
    assert_eq!(nodes("until_node", "- until node at\nwood\n"), "0004");
    assert_eq!(nodes("until_again", "- until node at at most 9\nwood until node at at most 9\n"), "0004444");
    assert_eq!(
        nodes("until_output", "wood until output drill\n- until not drill\nplaces until drill\n"),
        "4440111"
    );
    assert_eq!(
        nodes("until_only", "- until only node\nwood until nothing\nplaces until only drill\n"),
        "0044111"
    );
    assert_eq!(
        nodes("until_code", "- until code home\n- until code 12 at most 1\nswap until code return\n"),
        "0022"
    );
}

/// The limit that is reached is told, and ends the run there.
#[test]
fn a_limit_that_is_reached_is_told() {
    let scenario = "-\nwood until node of at most 7; expect at last drill, not wood\n-; expect drill\n"
        .replace(", not wood", "");
    let ran = played("limit", &scenario, "trace", &[]);
    let told = "line 2, column 12: the limit of 7 ticks is reached without node of of other\n";
    assert!(
        ran.status == 1 && ran.said.ends_with(told) && ran.said.contains("limit.scenario: "),
        "{}",
        ran.said
    );
    assert_eq!(words(&ran).len(), 8);
    let told = "line 2, ticks 1 to 7: the limit of 7 ticks is reached without node of of other";
    assert!(ran.printed.ends_with(&format!("\nnot as the scenario expects:\n  {told}\n")), "{}", ran.printed);
    assert_eq!(differences("limit_tested", &scenario), [told]);
    for command in ["why", "draw", "page"] {
        let more = match command {
            "draw" => vec!["--trace"],
            "page" => vec!["-o", "-"],
            _ => vec![],
        };
        let ran = played("limit", &scenario, command, &more);
        if command != "why" {
            assert!(ran.status == 1 && ran.said.contains("the limit of 7 ticks"), "{command}: {}", ran.said);
        }
    }
    // where no limit stands there it is 1000, and none goes past the most of a scenario
    let told = "line 1, ticks 0 to 999: the limit of 1,000 ticks is reached without node of of other";
    assert_eq!(differences("limit_of_its_own", "- until node of\n"), [told]);
    let ran = played("limit_past", "- * 65000\n- until node of at most 1000\n", "trace", &[]);
    let told = "line 2: with this step there are more than 65,536 ticks, the most of a scenario\n";
    assert!(ran.status == 1 && ran.printed.is_empty() && ran.said.contains(told), "{}", ran.said);
}

#[test]
fn places_and_swaps_are_made_where_they_stand() {
    let ran = played("swaps", "places 2\n- * 2\nswap sub=other\n- * 4\nswap 2=s2\n- * 9\n", "trace", &[]);
    assert_eq!((ran.status, ran.said.as_str()), (0, ""));
    assert!(ran
        .printed
        .starts_with("swaps.txt: 11 nodes in 3 schemes; stack of 2 places; scenario swaps.scenario\n"));
    let listed = |line: &str, told: &str| {
        assert!(
            ran.printed.lines().any(|row| row.trim_start().starts_with(line) && row.contains(told)),
            "{line}: {}",
            ran.printed
        );
    };
    listed("2 ", "other now serves sub; plain");
    listed("6 ", "sub now serves its own calls; ");
    let by_numbers = run(&[
        "trace",
        &file("swaps.txt", CHART.as_bytes()).to_string_lossy(),
        "--words",
        "-*15",
        "--swap",
        "2:sub=other,6:2=2",
        "--places",
        "2",
    ]);
    assert_eq!(words(&by_numbers), words(&ran));
    assert_eq!(
        ran.printed.lines().skip(1).collect::<Vec<_>>(),
        by_numbers.printed.lines().skip(1).collect::<Vec<_>>()
    );
    // the places of the call go before those of the scenario
    let ran = played("swaps", "places 2\n- * 2\n", "trace", &["--places", "1"]);
    assert!(ran.status == 1 && ran.printed.contains("stack of 1 place;"), "{}", ran.printed);
    let ran = played("refused_swap", "-\n  swap main=sub\n-\n", "trace", &[]);
    let told = ": line 2, column 8: the swap 1:1=2: this number cannot be given to that scheme\n      swap main=sub\n           ^\n  refusal 22: ";
    assert!(ran.status == 1 && ran.printed.is_empty() && ran.said.contains(told), "{}", ran.said);
}

/// A full stack that is expected is as it should be; what would follow is told to be left out.
#[test]
fn a_refused_tick_is_expected_or_told() {
    assert_eq!(differences("full", "places 1\n-\n-; expect refusal 17\n"), [] as [String; 0]);
    assert_eq!(differences("full_last", "places 1\n- * 9; expect at last refusal 17\n"), [] as [String; 0]);
    assert_eq!(differences("full_until", "places 1\n- until refusal 17\n"), [] as [String; 0]);
    assert_eq!(
        differences("full_untold", "places 1\n- * 9; expect nothing\n-\nwood\n"),
        [
            "line 2, tick 1, node start of main: expected a tick, and there is refusal 17: a call finds the stack full",
            "line 3, tick 1: the run ended before this line, and 2 steps from here on are left out",
        ]
    );
    let ran = played("full", "places 1\n-\n-; expect refusal 17\n", "trace", &[]);
    assert!(ran.status == 1 && ran.said.contains("ended by refusal 17 after 1 tick\n"), "{}", ran.said);
}

/// Every fault has its line and its column, and nothing is printed.
#[test]
fn a_fault_is_told_with_its_place() {
    for (scenario, told) in [
        ("wood wood", "line 1, column 6: 'wood', where '+', '*', 'until', ';' or the end of the line belongs"),
        ("wood, -", "line 1, column 5: ',' after a word: a step stands on a line of its own"),
        ("-\nwood expect drill", "line 2, column 6: 'expect' without a ';' before it"),
        ("wood; drill", "line 1, column 7: 'drill', where 'expect' belongs"),
        ("wood; expect drill drill", "line 1, column 20: 'drill', where ',', ';' or the end of the line belongs"),
        ("wood * 3 * 3", "line 1, column 10: '*', where ';' or the end of the line belongs"),
        ("wood * 65537", "line 1, column 8: '65537', where a number from 1 to 65536 belongs"),
        ("wood until drill at 7", "line 1, column 21: '7', where 'most' belongs"),
        ("wood + + -", "line 1, column 8: '+', where the name of a condition belongs"),
        ("; expect drill", "line 1, column 1: ';', where a word (names of conditions, a number, or - for none) belongs"),
        ("wod", "line 1, column 1: no condition is named 'wod'; 'wood' is near to it"),
        ("# so\n\n  wood + wood", "line 3, column 10: 'wood' stands twice"),
        ("wood + 1", "line 1, column 8: '1' is no name of a condition"),
        ("70000", "line 1, column 1: '70000' is more than 65535, the largest word"),
        ("0010", "line 1, column 1: '0010' begins with a 0: write 10, or 0x10, which is 16"),
        ("-; expect dril", "line 1, column 11: no output is named 'dril'; 'drill' is near to it"),
        ("-; expect both", "line 1, column 11: no output is named 'both', but a node is: write 'node both'"),
        ("wood until drill for 3", "line 1, column 18: 'for', where 'at most', ';' or the end of the line belongs"),
        ("-; expect node, output", "line 1, column 17: 'output', and no name after it"),
        ("-; expect not code", "line 1, column 15: 'code', and no name after it"),
        ("-; expect node both of sub", "line 1, column 16: node both belongs to scheme main"),
        ("-; expect node bth", "line 1, column 16: no node is named 'bth'; 'both' is near to it"),
        ("-; expect node both of min", "line 1, column 24: no scheme is named 'min'; 'main' is near to it"),
        ("-; expect node both of s7", "line 1, column 24: there is no scheme 7; the highest is 3"),
        ("- until node ask", "line 1, column 14: node ask (condition) takes no tick of its own: it is passed through in the tick"),
        ("- until node begin of main", "line 1, column 14: node begin takes no tick of its own"),
        ("- until node end", "line 1, column 14: each scheme has its own 'end'"),
        ("- until code 99", "line 1, column 14: no tick has the code 99"),
        ("- until code 4", "line 1, column 14: '4', where the two digits of a code, or one of: home, plain, return, drop, call"),
        ("- until code call mian", "line 1, column 19: no scheme is named 'mian'; 'main' is near to it"),
        ("- until refusal 16", "line 1, column 17: '16', where 17 or 18 belongs, the refusals that end a run"),
        ("-; expect only not drill", "line 1, column 16: an output that is off after 'only', where the name of an output"),
        ("-; expect nothing, drill", "line 1, column 11: 'nothing' beside an output that is to be on"),
        ("swap sub other\n-", "line 1, column 10: 'other', where '=' belongs"),
        ("swap sub=othr\n-", "line 1, column 10: no scheme is named 'othr'; 'other' is near to it"),
        ("-\nswap sub=other", "line 2, column 6: no step follows this swap"),
        ("places 33\n-", "line 1, column 8: '33', where a number of places from 1 to 32 belongs"),
        ("places 3\nplaces 3\n-", "line 2, column 8: the places are given already (line 1)"),
        ("-\nplaces 3\n-", "line 2, column 8: the places are given before the first step"),
        ("wood-on", "line 1, column 1: 'wood-on' is no name: a name is letters, digits and _"),
        ("wood\rwood\n", "line 1, column 5: a carriage return within the line"),
        ("- * 65536\n-", "line 2: with this step there are more than 65,536 ticks, the most of a scenario"),
        ("", "there is no step in it"),
        ("\u{FEFF}# nothing\r\n\r\n", "there is no step in it"),
        (CHART, "this looks like the readable notation, not like a scenario; line 1, column 11: '0', where '+', "),
        (include_str!("../../../examples/paper.chart"), "this looks like a chart, not like a scenario; line 1, column 1: "),
        (include_str!("../../../examples/paper.image"), "this looks like an image, not like a scenario; line 1, column 1: "),
        (include_str!("../../../examples/roughing.prices"), "line 2, column 14: '150', where '+', "),
    ] {
        for command in ["trace", "why", "draw", "page"] {
            let more: &[&str] = match command {
                "draw" => &["--trace"],
                "page" => &["-o", "-"],
                _ => &[],
            };
            let ran = played("fault", scenario, command, more);
            assert_eq!((ran.status, ran.printed.as_str()), (1, ""), "{command} {scenario}: {}", ran.said);
            assert!(ran.said.contains(&format!("fault.scenario: {told}")), "{scenario}: {}", ran.said);
        }
    }
}

/// Line ends of Windows, no last line feed and the mark before a text change nothing; a line as long as any is read whole.
#[test]
fn a_text_is_read_however_it_was_saved() {
    let text = "places 8\n# a\n- * 2; expect at last node\nwood until drill\n";
    let wanted = played("saved", text, "trace", &[]);
    let windows = text.replace('\n', "\r\n");
    let long = text.replace("# a", &format!("# {}", "a".repeat(200_000)));
    let spaces = text.replace(" * 2", &format!("{}* 2", " ".repeat(200_000)));
    for text in [windows.as_str(), text.trim_end(), &format!("\u{FEFF}{windows}"), &long, &spaces] {
        let ran = played("saved", text, "trace", &[]);
        assert!(wanted.status == 0 && (ran.status, &ran.printed) == (0, &wanted.printed), "{}", ran.said);
    }
    for (text, told) in [
        ("w".repeat(200_000), "line 1, column 1: no condition is named 'wwww".to_string()),
        (
            format!("{}wod", " ".repeat(200_000)),
            "line 1, column 200001: no condition is named 'wod'".to_string(),
        ),
        (format!("wood{}", " + wood".repeat(28_571)), "line 1, column 8: 'wood' stands twice".to_string()),
    ] {
        let ran = played("long", &text, "trace", &[]);
        assert!(ran.status == 1 && ran.said.contains(&told) && ran.said.len() < 1_000, "{}", ran.said);
    }
}

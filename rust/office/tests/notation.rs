//! What the notation refuses: each error with its line and column, and refusals told by its own lines and names.

use office::source;

fn told(text: &str) -> String {
    source::from_notation(text).expect_err("a fault").words
}

/// Two schemes with this line among them as line 9.
fn with(line: &str) -> String {
    let above = "condition 2 wood\noutput 0 spindle\n\nscheme 1 shaping\nbegin -> start\n";
    let below = "end\nscheme 2 roughing\nbegin -> cut\ncut: do spindle -> end\nend\n";
    format!("{above}start: do spindle; call roughing -> more\n\n# here\n{line}\n{below}")
}

#[test]
fn a_good_line_is_accepted() {
    for line in [
        "more: if wood then start else end",
        "more: if x2 then start else end # by number",
        "\tmore : if call s2 then start else end\r",
        "more: do spindle, y31; write 1; call roughing -> end",
        "more: call roughing; write 0; do nothing -> end",
        "more: write 1->end",
    ] {
        source::from_notation(&with(line)).unwrap_or_else(|problem| panic!("{line}: {problem}"));
    }
}

/// A hyphen in a name is told with the rule for names.
#[test]
fn a_sign_in_a_name_is_told() {
    for (line, column, name) in [
        ("output 3 cutter-in", 10, "cutter-in"),
        ("more: do cutter.in -> end", 10, "cutter.in"),
        ("more-wood: do nothing -> end", 1, "more-wood"),
        ("more: do nothing -> more/wood", 21, "more/wood"),
    ] {
        let told = told(&with(line));
        assert_eq!(
            told,
            format!("line 9, column {column}: '{name}' is no name: a name is letters, digits and _")
        );
    }
}

/// 64 characters are the most of a name, wherever it stands.
#[test]
fn a_longer_name_than_any_may_be_is_told() {
    for (line, column) in [
        ("condition 3 NAME", 13),
        ("output 3 NAME", 10),
        ("scheme 3 NAME", 10),
        ("NAME: do nothing -> end", 1),
        ("more: do y1, NAME -> end", 14),
        ("more: do nothing -> NAME", 21),
        ("more: call NAME -> end", 12),
        ("more: if NAME then end else end", 10),
        ("more: if call NAME then end else end", 15),
    ] {
        let fault =
            |length: usize| source::from_notation(&with(&line.replace("NAME", &"ö".repeat(length)))).err();
        let name = format!("the name '{}...' has 65 characters, and 64 are the most", "ö".repeat(40));
        let told = fault(65).expect("a fault").words;
        assert_eq!(told, format!("line 9, column {column}: {name}"), "{line}");
        assert!(!fault(64).is_some_and(|problem| problem.words.contains("characters")), "{line}");
    }
}

/// The Begin of scheme 2 with other words.
fn with_begin(line: &str) -> String {
    with("more: if wood then start else end").replace("begin -> cut", line)
}

#[test]
fn a_begin_marks_the_handler() {
    let records =
        |text: &str| source::from_notation(text).expect("accepted").notation.expect("it was").records;
    let plain = records(&with_begin("begin -> cut"));
    for line in ["begin when the stack is full -> cut", "full: begin\twhen the stack is full->cut # so"] {
        let marked = records(&with_begin(line));
        let changed: Vec<usize> = (0..plain.len()).filter(|at| plain[*at] != marked[*at]).collect();
        assert_eq!((changed, marked[42]), (vec![42], 1), "{line}");
    }
    // the words are no names that are taken away
    let text = with("when: do y1 -> full\nfull: if wood then start else end").replace("more", "when");
    assert!(source::from_notation(&text).is_ok());
}

#[test]
fn files_of_other_editors_are_read() {
    let text = with("more: if wood then start else end");
    let chart = source::from_notation(&text).expect("accepted").text;
    for other in [format!("\u{FEFF}{text}"), text.replace('\n', "\r\n"), text.trim_end().to_string()] {
        assert!(source::from_either(other.as_bytes()).expect("accepted").text == chart);
    }
}

#[test]
fn a_chart_line_in_a_comment_is_a_comment() {
    let text = format!("# 00010001000000000000FE\n{}", with("more: if wood then start else end"));
    assert!(source::from_either(text.as_bytes()).expect("accepted").notation.is_some());
}

#[test]
fn other_alphabets_are_read_in_utf_8_alone() {
    let text = with("more: if wood then größer else end").replace("start", "größer");
    assert_eq!(source::from_either(text.as_bytes()).expect("accepted").names.node(1), "größer");
    let latin: Vec<u8> = text.chars().map(|letter| letter as u8).collect();
    let problem = source::from_either(&latin).expect_err("another encoding");
    assert_eq!(problem.words, "line 5, column 12: byte F6 is no character in UTF-8");
    assert_eq!(problem.excerpt.as_deref(), Some("begin -> gr..er"));
}

#[test]
fn names_are_the_shops() {
    let names = source::from_notation(&with("more: if wood then start else end")).expect("accepted").names;
    assert_eq!((names.condition(2), names.operation(0)), ("wood".into(), "spindle".into()));
    assert_eq!((names.scheme(2), names.node(1)), ("roughing".into(), "start".into()));
    assert_eq!((names.node(0), names.node(3)), ("begin".into(), "end".into()));
    assert_eq!(
        (names.condition(3), names.operation(1), names.scheme(3)),
        ("x3".into(), "y1".into(), "s3".into())
    );
}

#[test]
fn faults_of_a_line() {
    let what = "where one of: begin, end, do, write, call, if belongs";
    let first =
        "where a name and a colon, or one of: begin, end, condition, output, scheme, never, always, belongs";
    let cases = [
        ("more: if wod then start else end", "column 10: no condition is named 'wod'; 'wood' is near to it"),
        ("more: if wood then strat else end", "column 20: no node is named 'strat'; 'start' is near to it"),
        ("more: do feed -> end", "column 10: no output is named 'feed'"),
        ("more: call polishing -> end", "column 12: no scheme is named 'polishing'"),
        ("more: do y32 -> end", "column 10: no output is named 'y32'"),
        ("more: if x16 then end else end", "column 10: no condition is named 'x16'"),
        ("more: do spindle", "column 17: the line ends, where '->' belongs"),
        ("more: do spindle end", "column 18: 'end', where '->' belongs"),
        ("more: do -> end", "column 10: '->', where the name of an output, or 'nothing', belongs"),
        ("more: do spindle, spindle -> end", "column 19: 'spindle' stands twice"),
        (
            "more: do spindle; do spindle -> end",
            "column 19: 'do', where one of: do, write, call, each once, belongs",
        ),
        ("more: write 2 -> end", "column 13: '2', where a number from 0 to 1 belongs"),
        ("more: if wood then end", "column 23: the line ends, where 'else' belongs"),
        ("more: if wood then end else end end", "column 33: 'end' after the end of the statement"),
        (
            "more: if then end else end",
            "column 10: 'then', where the name of a condition, or 'call', belongs",
        ),
        ("more: do spindle -> end; call s2", "column 24: ';' after the end of the statement"),
        ("more: do spindle = 1 -> end", "column 18: '=', where '->' belongs"),
        ("do spindle -> end", "column 1: 'do', where a name for this node and a colon belongs"),
        ("if: do spindle -> end", "column 1: 'if', where a name belongs"),
        ("start: do spindle -> end", "column 1: 'start' is a node already (line 6)"),
        ("more: do spindle\u{1} -> end", "column 17: '\\u{1}', where '->' belongs"),
        ("more: do spindle\u{200B} -> end", "column 17: '\\u{200b}', where '->' belongs"),
        ("more: do spindle -> End", "column 21: no node is named 'End'; 'end' is near to it"),
        ("more do spindle -> end", "column 6: 'do', where ':' belongs"),
        ("more: wait -> end", &format!("column 7: 'wait', {what}")),
        ("more", &format!("column 1: 'more', {first}")),
        ("condition 16 start_key", "column 11: '16', where a number from 0 to 15 belongs"),
        ("condition wood = 2", "column 11: 'wood', where a number from 0 to 15 belongs"),
        ("condition 2 chips", "column 13: condition 2 is named 'wood' already (line 1)"),
        ("condition 3 wood", "column 13: 'wood' is condition 2 already (line 1)"),
        ("condition 3 x5", "column 13: 'x5' is the name of condition 5"),
        ("condition 3", "column 12: the line ends, where a name belongs"),
        ("condition 3 end", "column 13: 'end', where a name belongs"),
        ("output 32 light", "column 8: '32', where a number from 0 to 31 belongs"),
        ("scheme 17", "column 8: '17', where a number from 1 to 16 belongs"),
        ("scheme 1 turning", "column 10: scheme 1 is named 'shaping' already (line 4)"),
    ];
    for (line, words) in cases {
        let problem = source::from_notation(&with(line)).expect_err(line);
        assert_eq!(problem.words, format!("line 9, {words}"));
        let visible = line.replace('\u{1}', ".");
        assert_eq!(
            (problem.line, problem.excerpt.as_deref(), problem.refusal),
            (Some(9), Some(&*visible), None)
        );
    }
}

#[test]
fn faults_of_a_begin() {
    for (line, words) in [
        ("begin when full -> cut", "column 12: 'full', where 'the' belongs"),
        ("begin when the stack is ful -> cut", "column 25: 'ful', where 'full' belongs"),
        ("begin when the stack is full", "column 29: the line ends, where '->' belongs"),
        ("begin full -> cut", "column 7: 'full', where '->' belongs"),
        ("end when the stack is full", "column 5: 'when' after the end of the statement"),
    ] {
        assert_eq!(told(&with_begin(line)), format!("line 12, {words}"));
    }
}

#[test]
fn numbers_that_are_no_names_are_told_by_their_range() {
    for (line, names) in [
        ("more: do y32 -> end", "outputs without a name are y0 to y31"),
        ("more: if x16 then end else end", "conditions without a name are x0 to x15"),
        ("more: if x02 then end else end", "conditions without a name are x0 to x15"),
        ("more: call s17 -> end", "schemes without a name are s1 to s16"),
    ] {
        let problem = source::from_notation(&with(line)).expect_err(line);
        assert_eq!(&*problem.advice, format!("the {names}"));
    }
    let problem = source::from_notation(&with("more: do feed -> end")).expect_err("no such output");
    assert_eq!(&*problem.advice, "a line such as 'output 2 feed'; without a name it is y2");
}

#[test]
fn faults_of_the_whole() {
    assert_eq!(told("begin -> end\n"), "line 1, column 1: a node belongs to a scheme, and none is named yet");
    assert_eq!(told("scheme 1\nbegin -> end\n"), "line 2, column 10: scheme 1 has no 'end' line");
    assert_eq!(told("# nothing\n"), "there is no node in it");
    assert_eq!(
        told("# Größen\rscheme 1\rbegin -> end\rend\r"),
        "line 1, column 9: a carriage return within the line"
    );
}

/// The library's refusals, by lines and names of the notation.
#[test]
fn refusals_in_the_notations_words() {
    let good = "more: if wood then start else end";
    let refused = |line: &str, words: &str| assert_eq!(told(&with(line)), words, "{line}");
    refused(
        "more: do spindle -> cut",
        "line 9 (node more): the next node is cut (line 13), which belongs to scheme roughing, but this node to \
         scheme shaping",
    );
    refused(
        "more: call s9 -> end",
        "line 9 (node more): an operation calls scheme 9, but the highest is scheme roughing",
    );
    refused(
        "more: call shaping -> end",
        "line 9 (node more): an operation calls scheme shaping, which nothing may call",
    );
    refused(
        "more: if x0 then more else end",
        "line 9 (node more): the next node on a 1 is this condition itself",
    );
    let two = with("more: if x0 then less else end\nless: if x1 then end else more");
    let circle = "more (line 9) -> less (line 10) -> more (line 9)";
    assert_eq!(told(&two), format!("line 9 (node more): a circle of conditions only: {circle}"));
    let cut_off = with("more: do nothing -> end\nlost: do spindle -> end");
    let never = "so the Begin of scheme shaping (line 5) never does";
    assert_eq!(told(&cut_off), format!("line 10 (node lost): no arc leads to this node, {never}"));
    assert_eq!(
        told(&with(good).replace("scheme 2 roughing", "scheme 3 roughing")),
        "scheme 2 has no nodes, though scheme roughing has (line 12)"
    );
    let second = with(&format!("{good}\nend"));
    assert_eq!(told(&second), "line 11 (end): a second End of scheme shaping; the first is line 10");
    let labelled = with("more: do spindle -> again").replace("begin -> start", "again: begin -> start");
    assert_eq!(told(&labelled), "line 9 (node more): the next node is again (line 5), a Begin");
}

/// Refusal 19 by the begin lines that bear the mark.
#[test]
fn a_wrong_mark_is_told_by_its_line() {
    let full = "begin when the stack is full";
    let first = with_begin(&format!("{full} -> cut"));
    let problem = source::from_notation(&first.replace("begin -> start", &format!("{full} -> start")));
    let problem = problem.expect_err("a mark on scheme 1");
    let words = "line 5 (begin): scheme shaping cannot be the handler; marked Begins: line 5 and line 12";
    assert_eq!((problem.words.as_str(), problem.line, problem.column), (words, Some(5), Some(7)));
    assert_eq!(problem.excerpt.as_deref(), Some("begin when the stack is full -> start"));
    assert_eq!(problem.refusal.map(|refusal| refusal.number()), Some(19));
    let third = format!("{first}scheme 3\nback: begin\twhen  the stack is full -> end\nend\n");
    let problem = source::from_notation(&third).expect_err("a second mark");
    let words = "line 16 (node back): a second handler; marked Begins: line 12 and back (line 16)";
    assert_eq!((problem.words.as_str(), problem.line, problem.column), (words, Some(16), Some(13)));
}

#[test]
fn too_many_rows_are_told_by_names() {
    let mut text = String::from("scheme 1\nbegin -> stop\nstop: do y0 -> c0\n");
    for k in 0..11 {
        let next = if k == 10 { "end".to_string() } else { format!("c{}", k + 1) };
        text.push_str(&format!("c{k}: if x{k} then {next} else {next}\n"));
    }
    text.push_str("end\n");
    let source = source::from_notation(&text).expect("lines that can be written");
    let problem = office::check::translated(&source).expect_err("too many rows");
    let words = "the chart has 2,048 rows, and 1,024 are the most; stop (line 3) has 2,048";
    assert_eq!((problem.words.as_str(), problem.line), (words, Some(3)));
}

/// Whatever is typed into a notation, it is read or told with a line and a column.
#[test]
fn garbled_notations_are_told() {
    use comparison::generate::Random;
    use office::notation::Notation;
    let text = with_begin("begin when the stack is full -> cut");
    let characters: Vec<char> = text.chars().collect();
    let (mut read, mut refused) = (0, 0);
    for seed in 0..50_000 {
        let random = &mut Random::new(seed);
        let mut garbled = characters.clone();
        for _ in 0..random.within(1, 3) {
            let at = random.below(garbled.len());
            match random.below(4) {
                0 => drop(garbled.remove(at)),
                1 => garbled.insert(at, random.pick(&characters)),
                2 => garbled[at] = random.pick(&[' ', '\n', '#', ':', ';', '-', '>', 'é', '\u{0}', '=']),
                _ => garbled.swap(at, random.below(characters.len() - 3)),
            }
        }
        let garbled: String = garbled.into_iter().collect();
        match Notation::parse(&garbled) {
            Ok(notation) => {
                let again = Notation::parse(&notation.layout()).expect("what is laid out can be read");
                assert_eq!((again.records, again.names), (notation.records, notation.names));
                read += 1;
            }
            Err(problem) => {
                let (line, column) = (problem.line.expect("a line"), problem.column.expect("a column"));
                assert!(problem.words.starts_with(&format!("line {line}, column {column}: ")), "{problem}");
                let length = garbled.lines().nth(line - 1).expect("that line").chars().count();
                assert!(column <= length + 1, "{problem}\n{garbled}");
                refused += 1;
            }
        }
    }
    assert!(read > 1_000 && refused > 1_000, "{read} {refused}");
}

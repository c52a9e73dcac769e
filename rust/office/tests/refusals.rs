//! The words of each refusal of charts and runs, on chart P of the paper and its image with one fault each.

mod shared;

use office::check::checked;
use shared::sheets::{each, edited, lines, told, CHART, IMAGE};

#[test]
fn the_sheets_are_accepted() {
    let words = "accepted: a chart of 7 nodes in 2 schemes; its image has 5 labels and 4 rows";
    let places = "may need any number of places: s2 calls itself";
    assert_eq!(checked(CHART.as_bytes()).unwrap(), format!("{words}; {places}"));
    assert_eq!(checked(IMAGE.as_bytes()).unwrap(), "accepted: an image of 2 schemes, 5 labels and 4 rows");
    assert_eq!(edited(CHART, 1, 1, "00"), CHART);
    let with_handler = format!("{words}; scheme 2 is the handler; {places}");
    assert_eq!(checked(edited(CHART, 4, 5, "01").as_bytes()).unwrap(), with_handler);
    let with_handler = "accepted: an image of 2 schemes, 5 labels and 4 rows; scheme 2 is the handler";
    assert_eq!(checked(edited(IMAGE, 1, 11, "02").as_bytes()).unwrap(), with_handler);
}

#[test]
fn refusal_1_the_length() {
    each(
        1,
        &[
            (String::new(), "the file is empty"),
            (CHART.replace('\n', "\r\n"), "line 1 ends with a carriage return, and so do 6 more"),
            (CHART.replace("F8\n", "F8\r\n"), "line 2 ends with a carriage return"),
            (CHART.trim_end().to_string(), "the last line, line 7, has no line feed"),
            (CHART.replace("FA\n", "FA\n\n"), "line 5 is empty"),
            (CHART.replace("01F8", "1F8"), "line 2 has 21 characters, not 22"),
            (CHART.replace("01F8", "001F8"), "line 2 has 23 characters, not 22"),
            (CHART.replace("F8\n", "F8 \n"), "line 2 has 23 characters, not 22; column 23 is a space"),
            (format!("# P\n{CHART}"), "line 1 has 3 characters, not 22; column 1 is '#'"),
            (CHART[..100].to_string(), "the last line, line 5, has no line feed and 8 characters, not 22"),
            (CHART.repeat(40), "the file has 280 lines, and a chart has at most 256"),
            (IMAGE.repeat(200), "the file has 2,400 lines, and an image has at most 1,297"),
            (
                format!("\u{FEFF}{CHART}"),
                "the file begins with a byte order mark, three bytes that no editor shows",
            ),
        ],
    );
    let wide: Vec<u8> = CHART.encode_utf16().flat_map(u16::to_le_bytes).collect();
    let words = "the file begins with the mark of UTF-16, two bytes for each character";
    assert_eq!(told([b"\xFF\xFE", &wide[..]].concat()), (1, words.to_string()));
}

#[test]
fn refusal_2_a_character() {
    let shifted = CHART.replace("01F8\n", "1F8\n").replacen("00FE\n00", "000FE\n00", 1);
    each(
        2,
        &[
            (CHART.replace("F8", "g8"), "line 2, column 21: small letter 'g' (only 0-9, A-F and a-f)"),
            (CHART.replace("F8", "`8"), "line 2, column 21: '`' (only 0-9, A-F and a-f)"),
            (CHART.replace("F8", "G8"), "line 2, column 21: letter 'G' (only 0-9, A-F and a-f)"),
            (CHART.replacen("02", "O2", 1), "line 2, column 1: letter 'O' (only 0-9, A-F and a-f)"),
            (CHART.replace("F8", " 8"), "line 2, column 21: a space (only 0-9, A-F and a-f)"),
            (CHART.replace("F8\n", "F80"), "line 2, column 23: the digit 0 after the 22 digits"),
            (CHART.replace("01F8\n", "1F8\r\n"), "line 2 ends with a carriage return"),
            (format!("{}\n{}", &CHART[..46], &CHART[47..]), "line 3 is empty"),
            (shifted, "line 2 has 21 characters, not 22"),
        ],
    );
    let alone = checked(CHART.replace('\n', "\r").as_bytes()).expect_err("no line feed");
    assert_eq!(alone.words, "line 1, column 23: a carriage return after the 22 digits");
    assert!(alone.advice.contains("carriage returns alone"), "{alone}");
    let byte = "line 1, column 1: a character outside plain text, byte FF (only 0-9, A-F and a-f)";
    assert_eq!(told([b"\xFF", &CHART.as_bytes()[1..]].concat()), (2, byte.to_string()));
}

#[test]
fn refusal_3_the_sum() {
    each(
        3,
        &[
            (CHART.replace("F8", "F9"), "line 2, column 21: the sum should be F8, not F9"),
            (CHART.replace("0002F3", "0003F3"), "line 7, column 21: the sum should be F2, not F3"),
            (IMAGE.replacen("E7", "E6", 1), "line 1, column 21: the sum should be E7, not E6"),
        ],
    );
}

#[test]
fn refusal_4_a_field() {
    let kinds = "it should be 00 Begin, 01 End, 02 operation, 03 condition or 04 function";
    let in_use = "has no use for this byte: it should be 00";
    let cases = [
        ((2, 1, "07"), format!("line 2, column 1: the kind is 07; {kinds}")),
        (
            (2, 3, "11"),
            "line 2, column 3: the scheme is 11 (17 in decimal); it should be 01 to 10, 1 to 16 in decimal"
                .into(),
        ),
        (
            (2, 3, "00"),
            "line 2, column 3: the scheme is 00; it should be 01 to 10, 1 to 16 in decimal".into(),
        ),
        (
            (5, 5, "10"),
            "line 5, column 5: the condition's number is 10 (16 in decimal); it should be 00 to 0F".into(),
        ),
        (
            (2, 11, "03"),
            "line 2, column 11: the result is 03; it should be 00 (keep), 01 (write 0) or 02 (write 1)"
                .into(),
        ),
        ((2, 9, "05"), format!("line 2, column 9: 05 stands here, but an operation {in_use}")),
        ((1, 5, "02"), "line 1, column 5: the mark is 02; it should be 00 (none) or 01 (the handler)".into()),
        ((4, 5, "FF"), "line 4, column 5: the mark is FF; it should be 00 (none) or 01 (the handler)".into()),
        ((1, 9, "01"), format!("line 1, column 9: 01 stands here, but a Begin {in_use}")),
        ((3, 5, "01"), format!("line 3, column 5: 01 stands here, but an End {in_use}")),
        ((3, 7, "02"), format!("line 3, column 7: 02 stands here, but an End {in_use}")),
        ((5, 19, "F0"), format!("line 5, column 19: F0 stands here, but a condition {in_use}")),
    ];
    for ((line, column, digits), words) in cases {
        assert_eq!(told(edited(CHART, line, column, digits)), (4, words));
    }
}

#[test]
fn refusal_5_begin_and_end() {
    each(
        5,
        &[
            (
                edited(CHART, 6, 1, "02"),
                "scheme 2 has no End; its nodes are line 4, line 5, line 6 and line 7",
            ),
            (edited(CHART, 7, 3, "04"), "scheme 3 has no nodes, though scheme 4 has (line 7)"),
            (edited(CHART, 6, 3, "01"), "line 6, column 3: a second End of scheme 1; the first is line 3"),
            (edited(CHART, 4, 3, "01"), "line 4, column 3: a second Begin of scheme 1; the first is line 1"),
            (lines(&["01010000000000000000"]), "scheme 1 has no Begin; its node is line 1"),
        ],
    );
}

#[test]
fn refusal_6_an_arc() {
    let other = "which belongs to scheme 2, but this node to scheme 1";
    each(
        6,
        &[
            (edited(CHART, 2, 7, "09"), "line 2, column 7: the next node is 09, but the last node is 06 (line 7)"),
            (edited(CHART, 2, 7, "05"), &format!("line 2, column 7: the next node is 05 (line 6), {other}")),
            (edited(CHART, 7, 7, "03"), "line 7, column 7: the next node is 03 (line 4), a Begin"),
            (
                edited(CHART, 5, 9, "10"),
                "line 5, column 9: the next node on a 1 is 10 (16 in decimal), but the last node is 06 (line 7)",
            ),
        ],
    );
}

#[test]
fn refusal_7_a_call() {
    let function = lines(&["00010001000000000000", "04010002020000000000", "01010000000000000000"]);
    each(
        7,
        &[
            (
                edited(CHART, 2, 5, "01"),
                "line 2, column 5: an operation calls scheme 1, which nothing may call",
            ),
            (
                edited(CHART, 2, 5, "09"),
                "line 2, column 5: an operation calls scheme 9, but the highest is scheme 2",
            ),
            (
                edited(CHART, 2, 5, "11"),
                "line 2, column 5: an operation calls scheme 17 (11), but the highest is scheme 2",
            ),
            (
                edited(CHART, 7, 1, "04020005050000000000"),
                "line 7, column 5: a function calls a scheme, and 00 is none",
            ),
            (function, "line 2, column 1: a function calls a scheme, but there is one scheme only"),
        ],
    );
}

#[test]
fn refusal_8_a_circle() {
    let two =
        ["00010001000000000000", "03010002030000000000", "03010101030000000000", "01010000000000000000"];
    each(
        8,
        &[
            (edited(CHART, 5, 7, "04"), "line 5, column 7: the next node on a 0 is this condition itself"),
            (lines(&two), "line 2, column 7: a circle of conditions only: line 2 -> line 3 -> line 2"),
        ],
    );
}

#[test]
fn refusal_9_cut_off() {
    let two =
        ["00010001000000000000", "01010000000000000000", "02010003000000000000", "02010002000000000000"];
    let own = ["00010001000000000000", "01010000000000000000", "02010002000000000000"];
    let never = |scheme: &str| format!("so the Begin of {scheme} never does");
    let never = [never("scheme 2 (line 4)"), never("scheme 1 (line 1)")];
    each(
        9,
        &[
            (
                edited(CHART, 5, 9, "05"),
                &format!("line 7, column 1: no arc leads to this node, {}", never[0]),
            ),
            (
                lines(&two),
                &format!("line 3, column 1: only line 4 leads to this node and is cut off too, {}", never[1]),
            ),
            (lines(&own), &format!("line 3, column 1: only its own arc leads to this node, {}", never[1])),
        ],
    );
}

#[test]
fn refusal_10_rows() {
    let conditions = |count: usize| -> Vec<String> {
        (0..count).map(|k| format!("0301{k:02X}{:02X}{:02X}0000000000", k + 4, k + 4)).collect()
    };
    let mut records = vec!["00010001000000000000".to_string(), "02010002000000000001".into()];
    records.push("02010003000000000001".into());
    records.extend(conditions(10));
    records.push("01010000000000000000".into());
    let records: Vec<&str> = records.iter().map(String::as_str).collect();
    let words = "the chart has 1,025 rows, and 1,024 are the most; line 3 has 1,024 and line 2 has 1";
    each(10, &[(lines(&records), words)]);
}

/// Refusals of states and runs name no line; their words tell the ticks.
#[test]
fn refusals_14_to_18() {
    use fairleadow::{Library, Proved, Refusal, State};
    use office::kind::Kind;
    let told = |refusal: Refusal| office::explain::refusal(IMAGE.as_bytes(), Kind::Image, refusal).words;
    assert_eq!(told(Proved.fresh(33).unwrap_err()), "a stack has 1 to 32 places");
    let run = |image: &str, state: &State, room: usize| {
        let (mut state, mut masks, mut codes) = (*state, vec![0; room], vec![0; room]);
        let answer = Proved.run(image.as_bytes(), &mut state, &[0, 0, 1, 0], &mut masks, &mut codes);
        answer.expect_err("it is refused")
    };
    let state = Proved.fresh(2).expect("a good size");
    assert_eq!(told(run(IMAGE, &State::NONE, 4)), "the state does not fit the image");
    assert_eq!(told(run(IMAGE, &state, 3)), "a buffer is too short for the answer");
    assert_eq!(told(run(IMAGE, &state, 4)), "after 3 ticks a call finds the stack full");
    let patched = edited(&IMAGE.replace("12030001000102040000E3\n", ""), 1, 9, "03");
    assert_eq!(told(run(&patched, &state, 4)), "after 2 ticks no row of the label matches the word");
}

#[test]
fn refusal_19_the_mark() {
    let three = format!("{CHART}{}", lines(&["00030108000000000000", "01030000000000000000"]));
    let second = edited(&three, 4, 5, "01");
    let cannot = "line 1, column 5: scheme 1 cannot be the handler; marked Begins:";
    each(
        19,
        &[
            (edited(CHART, 1, 5, "01"), &format!("{cannot} line 1")),
            (edited(&second, 1, 5, "01"), &format!("{cannot} line 1, line 4 and line 8")),
            (second, "line 8, column 5: a second handler; marked Begins: line 4 and line 8"),
        ],
    );
    // tried between 5 and 6
    let marked = edited(CHART, 1, 5, "01");
    assert_eq!(told(edited(&marked, 6, 1, "02")).0, 5);
    assert_eq!(told(edited(&marked, 2, 7, "09")).0, 19);
}

/// The first full stack starts the handler, the second is met with the handler at the bottom.
#[test]
fn a_full_stack_is_refused_while_the_handler_is_at_the_bottom() {
    use fairleadow::{Library, Proved, Refusal, State};
    let chart = edited(CHART, 4, 5, "01");
    let mut image = vec![0; fairleadow::IMAGE_TEXT];
    let length = Proved.translate(chart.as_bytes(), &mut image).expect("an image");
    assert_eq!(image[..length], *edited(IMAGE, 1, 11, "02").as_bytes());
    let (mut masks, mut codes) = ([0; 9], [0; 9]);
    let words = [0, 0, 1, 0, 1, 1, 1, 0, 0];
    let mut after = Proved.fresh(2).expect("a good size");
    let answer = Proved.run(&image[..length], &mut after, &words, &mut masks, &mut codes);
    assert_eq!(answer, Err(Refusal::Full { ticks: 7 }));
    assert_eq!(codes[..7], [0x04, 0x12, 0x00, 0x60, 0x00, 0x12, 0x00]);
    assert_eq!(masks[..7], [0, 1, 0, 2, 0, 2, 0]);
    assert_eq!((after.depth, &after.places[..3]), (2, &[4, 4, 0][..]));
    // the handler at the bottom fits an image with this handler alone
    let answer =
        |image: &str, mut state: State| Proved.run(image.as_bytes(), &mut state, &[], &mut [], &mut []);
    assert_eq!(answer(IMAGE, after), Err(Refusal::Unfit));
    assert_eq!(answer(&edited(IMAGE, 1, 11, "02"), after), Ok(0));
}

#[test]
fn a_refusal_printed_by_the_programs_is_known() {
    let problem = checked(b"FF01000000000000000000\n").unwrap_err();
    assert!(problem.advice.contains("FF tells a refusal"));
}

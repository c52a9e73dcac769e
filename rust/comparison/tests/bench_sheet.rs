//! The bench sheet, B1 to B10, and the cases that requests add, run on the reference.

use comparison::samples::with_handler;
use reference::frames::{text_of, Frame, IMAGE_TEXT};
use reference::{entry, fresh_state, programs, walk, Answer, Refusal};

const CHART_P: &str = "\
00010001000000000000FE
02010202000000000001F8
01010000000000000000FE
00020004000000000000FA
03020005060000000000F0
01020000000000000000FD
02020205000000000002F3
";

const IMAGE_P: &str = "\
0F020400040000000000E7
10010200000000000000ED
10020300000000000000EB
11000400010000000000EA
11010300000000000000EB
11020102010000000001E8
11030000020000000000EA
11040102020000000002E4
12020000000002000000EA
12030001000002010000E7
12030001000102040000E3
12040000000002010000E7
";

const W: [u16; 8] = [0, 0, 1, 0, 0, 0, 0, 0];

/// Answer, masks and codes of a run from a fresh state.
fn run(image: &[u8], size: usize, words: &[u16]) -> (Answer, Vec<u32>, Vec<u8>) {
    let mut state = fresh_state(size).unwrap();
    let (mut masks, mut codes) = (vec![99; words.len()], vec![99; words.len()]);
    let answer = entry::run(image, &mut state, words, &mut masks, &mut codes);
    (answer, masks, codes)
}

fn translate(text: &[u8]) -> Answer {
    entry::translate(text, &mut [0; IMAGE_TEXT])
}

const BEGIN: Frame = [0, 1, 0, 1, 0, 0, 0, 0, 0, 0];
const END: Frame = [1, 1, 0, 0, 0, 0, 0, 0, 0, 0];

#[test]
fn b1_p_gives_its_image() {
    assert_eq!(programs::translate(CHART_P.as_bytes()), IMAGE_P.as_bytes());
}

#[test]
fn b2_three_places() {
    let (answer, masks, codes) = run(IMAGE_P.as_bytes(), 3, &W);
    assert_eq!(answer, Ok(8));
    assert_eq!(codes, [0x04, 0x12, 0x00, 0x12, 0x00, 0x03, 0x03, 0x04]);
    assert_eq!(masks, [0, 1, 0, 2, 0, 0, 0, 0]);
}

#[test]
fn b2_by_the_walk() {
    let chart = entry::chart_from_text(CHART_P.as_bytes()).unwrap();
    let ticks = walk::walk(&chart, 3, &W);
    let codes: Vec<u8> = ticks.iter().map(|t| t.code).collect();
    let masks: Vec<u32> = ticks.iter().map(|t| t.mask).collect();
    let open: Vec<usize> = ticks.iter().map(|t| t.open).collect();
    assert_eq!(codes, [0x04, 0x12, 0x00, 0x12, 0x00, 0x03, 0x03, 0x04]);
    assert_eq!(masks, [0, 1, 0, 2, 0, 0, 0, 0]);
    assert_eq!(open, [1, 1, 2, 2, 3, 3, 2, 1]);
}

#[test]
fn b3_two_places() {
    let (answer, masks, codes) = run(IMAGE_P.as_bytes(), 2, &W);
    assert_eq!(answer, Err(Refusal::Full { ticks: 3 }));
    assert_eq!(codes, [0x04, 0x12, 0x00, 99, 99, 99, 99, 99]);
    assert_eq!(masks, [0, 1, 0, 99, 99, 99, 99, 99]);
}

#[test]
fn b4_one_place() {
    assert_eq!(run(IMAGE_P.as_bytes(), 1, &W).0, Err(Refusal::Full { ticks: 1 }));
}

#[test]
fn b5_no_words() {
    for size in 1..=32 {
        assert_eq!(run(IMAGE_P.as_bytes(), size, &[]).0, Ok(0));
    }
}

#[test]
fn b6_begin_to_end() {
    let image = entry::translated(&text_of(&[BEGIN, END])).unwrap();
    let (answer, masks, codes) = run(&image, 1, &[0xFFFF; 20]);
    assert_eq!(answer, Ok(20));
    assert_eq!(codes, [0x04; 20]);
    assert_eq!(masks, [0; 20]);
}

#[test]
fn b7_empty() {
    assert_eq!(translate(b""), Err(Refusal::BadLength));
}

/// B7 had this chart refused; by request e it translates as in capitals.
#[test]
fn b7_small_letters() {
    assert_eq!(translate(CHART_P.to_lowercase().as_bytes()), translate(CHART_P.as_bytes()));
    assert_eq!(translate(CHART_P.replace("FE", "fE").as_bytes()), translate(CHART_P.as_bytes()));
}

#[test]
fn b8_a_circle_before_what_is_cut_off() {
    let condition = [3, 1, 0, 1, 1, 0, 0, 0, 0, 0];
    assert_eq!(translate(&text_of(&[BEGIN, condition, END])), Err(Refusal::Circle(1)));
}

/// Begin, so many plain operations, ten different conditions with both arcs to the next, End.
fn ladder(operations: u8) -> Vec<u8> {
    let mut records = vec![BEGIN];
    for _ in 0..operations {
        records.push([2, 1, 0, records.len() as u8 + 1, 0, 0, 0, 0, 0, 0]);
    }
    for number in 0..10 {
        let next = records.len() as u8 + 1;
        records.push([3, 1, number, next, next, 0, 0, 0, 0, 0]);
    }
    records.push(END);
    text_of(&records)
}

#[test]
fn b9_the_most_rows() {
    let image = entry::image_from_text(&entry::translated(&ladder(1)).unwrap()).unwrap();
    assert_eq!(image.rows.len(), 1_024);
    assert_eq!(translate(&ladder(2)), Err(Refusal::ManyRows));
}

#[test]
fn b10_a_function() {
    let text = text_of(&[
        BEGIN,
        [4, 1, 2, 3, 2, 0, 0, 0, 0, 0],
        [2, 1, 0, 3, 0, 0, 0, 0, 0, 1],
        END,
        [0, 2, 0, 5, 0, 0, 0, 0, 0, 0],
        [2, 2, 0, 6, 0, 2, 0, 0, 0, 0],
        [1, 2, 0, 0, 0, 0, 0, 0, 0, 0],
    ]);
    let image = entry::translated(&text).unwrap();
    for words in [[0; 6], [0xFFFF; 6]] {
        let (answer, masks, codes) = run(&image, 2, &words);
        assert_eq!(answer, Ok(6));
        assert_eq!(codes, [0x04, 0x42, 0x00, 0x03, 0x00, 0x04]);
        assert_eq!(masks, [0, 0, 0, 0, 1, 0]);
    }
}

/// A function, on 1 mask 1, on 0 mask 2; its scheme writes 1 where condition 0 is 1 and writes nothing otherwise.
fn bore_test() -> Vec<u8> {
    text_of(&[
        BEGIN,
        [4, 1, 2, 2, 3, 0, 0, 0, 0, 0],
        [2, 1, 0, 4, 0, 0, 0, 0, 0, 2],
        [2, 1, 0, 4, 0, 0, 0, 0, 0, 1],
        END,
        [0, 2, 0, 6, 0, 0, 0, 0, 0, 0],
        [3, 2, 0, 8, 7, 0, 0, 0, 0, 0],
        [2, 2, 0, 8, 0, 2, 0, 0, 0, 0],
        [1, 2, 0, 0, 0, 0, 0, 0, 0, 0],
    ])
}

/// The first block has a bore, the second has none: its answer is no, whatever the first one left.
#[test]
fn two_blocks() {
    let image = entry::translated(&bore_test()).unwrap();
    let words = [0, 0, 1, 0, 0, 0, 0, 0, 0, 0, 0, 0];
    let (answer, masks, codes) = run(&image, 2, &words);
    assert_eq!(answer, Ok(12));
    assert_eq!(codes, [0x04, 0x42, 0x00, 0x00, 0x03, 0x00, 0x04, 0x42, 0x00, 0x03, 0x00, 0x04]);
    assert_eq!(masks, [0, 0, 0, 0, 0, 1, 0, 0, 0, 0, 2, 0]);
}

/// The answer of a run that starts with scheme 2's bit at 1, and that bit after it.
fn bit_after(image: &[u8], size: usize, words: &[u16]) -> (Answer, bool) {
    let mut state = fresh_state(size).unwrap();
    state.results[1] = true;
    let (mut masks, mut codes) = ([0; 4], [0; 4]);
    let answer = entry::run(image, &mut state, words, &mut masks, &mut codes);
    (answer, state.results[1])
}

/// An operation of scheme 2 that writes 1 and calls scheme 2 leaves a 0; a call that finds the stack full leaves the bit.
#[test]
fn a_call_clears_after_it_writes() {
    let text = text_of(&[
        BEGIN,
        [2, 1, 2, 2, 0, 0, 0, 0, 0, 0],
        END,
        [0, 2, 0, 4, 0, 0, 0, 0, 0, 0],
        [2, 2, 2, 5, 0, 2, 0, 0, 0, 0],
        [1, 2, 0, 0, 0, 0, 0, 0, 0, 0],
    ]);
    let image = entry::translated(&text).unwrap();
    assert_eq!(bit_after(&image, 3, &[0]), (Ok(1), true));
    assert_eq!(bit_after(&image, 3, &[0; 2]), (Ok(2), false));
    assert_eq!(bit_after(&image, 3, &[0; 3]), (Ok(3), false));
    assert_eq!(bit_after(&image, 1, &[0; 2]), (Err(Refusal::Full { ticks: 1 }), true));
}

const CHART_D: &str = "\
00010001000000000000FE
02010202000200000001F6
01010000000000000000FE
00020004000000000000FA
02020205000200000002F1
01020000000000000000FD
00030107000000000000F5
02030008000200000004ED
01030000000000000000FC
";

const IMAGE_D: &str = "\
0F030400030300000000E4
10010200000000000000ED
10020300000000000000EB
10030400000000000000E9
11000400010000000000EA
11010300000000000000EB
11020102010200000001E6
11030102020200000002E3
11040000030200000004E2
12020000000002000000EA
12030000000002010000E8
12040000000002010000E7
";

/// Chart D, with scheme 3 as the handler, gives this image, and without the mark the same but for byte 5 of its header.
#[test]
fn the_header_names_the_handler() {
    assert_eq!(text_of(&with_handler()), CHART_D.as_bytes());
    assert_eq!(programs::translate(CHART_D.as_bytes()), IMAGE_D.as_bytes());
    let mut unmarked = with_handler();
    unmarked[6][2] = 0;
    let image = programs::translate(&text_of(&unmarked));
    assert_eq!(&image[..23], b"0F030400030000000000E7\n");
    assert_eq!(image[23..], IMAGE_D.as_bytes()[23..]);
}

/// The second call of scheme 2 finds both places taken: its mask comes with code 60, scheme 3 follows, and then a home tick.
#[test]
fn the_handler_follows_a_full_stack() {
    let wanted = [0x04, 0x12, 0x60, 0x00, 0x03, 0x04, 0x12, 0x60, 0x00, 0x03];
    let (answer, masks, codes) = run(IMAGE_D.as_bytes(), 2, &[0; 10]);
    assert_eq!(answer, Ok(10));
    assert_eq!(codes, wanted);
    assert_eq!(masks, [0, 1, 2, 4, 0, 0, 1, 2, 4, 0]);
    let ticks = walk::walk(&entry::chart_from_text(CHART_D.as_bytes()).unwrap(), 2, &[0; 10]);
    let told = |t: &walk::Tick| (t.code, t.mask, t.open);
    let open = [1, 1, 2, 1, 1, 1, 1, 2, 1, 1];
    let expected: Vec<_> = (0..10).map(|k| (wanted[k], masks[k], open[k])).collect();
    assert_eq!(ticks.iter().map(told).collect::<Vec<_>>(), expected);
}

#[test]
fn programs_print_refusals() {
    assert_eq!(programs::translate(b""), b"FF01000000000000000000\n");
    assert_eq!(programs::run(b""), b"FF01000000000000000000\n");
}

#[test]
fn the_run_program_prints_64_codes() {
    let printed = String::from_utf8(programs::run(IMAGE_P.as_bytes())).unwrap();
    assert!(printed.starts_with("04\n12\n00\n03\n04\n12\n00\n03\n04\n"), "{printed}");
    assert_eq!(printed.lines().count(), 64);
}

//! Random patches of images of all sorts: the rows are in their places, and what is told to differ is exactly the patch, by the reference's
//! search for the row.

use comparison::generate::{images, Random};
use office::diff::images::differences;
use office::image::{Image, Row};
use office::labels::words;
use office::patch::patched;
use office::plan::Plan;
use office::source::from_bytes;
use office::subject::Subject;
use reference::frames::text_of;
use reference::image as plain;

/// The rows as the reference has them.
fn plain_rows(rows: &[Row]) -> Vec<plain::Row> {
    let row = |row: &Row| plain::Row {
        from: row.from,
        care: row.care,
        values: row.values,
        function_bit: row.result,
        next: row.next,
    };
    rows.iter().map(row).collect()
}

/// A row of a label that rule 13 lets pass: one that is there, as it stands or leading elsewhere, or one like it, or any.
fn some_row(random: &mut Random, image: &plain::Image, rows: &[Row]) -> Row {
    let from = random.within(2, image.labels.len() - 1) as u8;
    let own: Vec<Row> = rows.iter().copied().filter(|row| row.from == from).collect();
    let label = image.labels[usize::from(from)];
    let next = images::owned(random, &image.labels, label.owner);
    let any = Row { from, care: 0, values: 0, result: 2, next };
    let row = if own.is_empty() { any } else { random.pick(&own) };
    match random.below(4) {
        0 => Row { next, ..row },
        1 => row,
        _ => {
            let care = row.care ^ 1 << random.below(16);
            let values = (row.values ^ random.number() as u16) & care;
            let result = if label.kind == plain::FUNCTION_CALL { random.below(3) as u8 } else { 2 };
            Row { care, values, result, next, ..row }
        }
    }
}

/// Rows with one more in its place, or one less, by plain means.
fn expected(rows: &mut Vec<Row>, row: Row, removed: bool) {
    if removed {
        rows.retain(|own| !own.asks_as(&row));
        return;
    }
    match rows.iter_mut().rev().find(|own| own.asks_as(&row)) {
        Some(own) => *own = row,
        None => {
            rows.push(row);
            rows.sort_by_key(|row| row.from);
        }
    }
}

/// Where a label goes by a word and a result in the reference, an End as 0.
fn goes(image: &plain::Image, label: u8, word: u16, result: bool) -> Option<u8> {
    let results = [result; 16];
    let rows = reference::machine::matching(image, &results, label, word);
    rows.max_by_key(|row| row.care.count_ones()).map(|row| if row.next == 1 { 0 } else { row.next })
}

/// What a line of a difference says: the conditions with their values, a result, and the two labels.
struct Said {
    care: u16,
    values: u16,
    result: Option<bool>,
    next: [Option<u8>; 2],
}

fn said(subject: &Subject, line: &str) -> Said {
    let (asked, leads) = line.trim().split_once(": ").expect("a colon");
    let (new, old) = leads.split_once(", not ").expect("two labels");
    let old =
        if old.starts_with("by") || new.starts_with("by") { old.to_string() } else { format!("to {old}") };
    let label = |leads: &str| match leads.strip_prefix("to ") {
        Some(word) => Some(subject.labelled(word, 1).expect("a label")),
        None => {
            assert_eq!(leads, "by no row (18)");
            None
        }
    };
    let mut said = Said { care: 0, values: 0, result: None, next: [label(&old), label(new)] };
    for part in asked.strip_prefix("when ").into_iter().flat_map(|parts| parts.split(" and ")) {
        if let Some(result) = part.strip_prefix("result ") {
            said.result = Some(result == "1");
            continue;
        }
        let (name, value) = part.strip_prefix("not ").map_or((part, 1), |name| (name, 0));
        let number: u16 = name.strip_prefix('x').expect("a condition").parse().expect("its number");
        said.care |= 1 << number;
        said.values |= value << number;
    }
    said
}

/// That the lines tell exactly the words by which each label goes elsewhere.
fn tells_exactly(subject: &Subject, lines: &[String], before: &plain::Image, after: &plain::Image) -> usize {
    let mut differing = 0;
    for label in 2..before.labels.len() as u8 {
        let own = |image: &plain::Image| -> Vec<plain::Row> {
            image.rows.iter().copied().filter(|row| row.from == label).collect()
        };
        let head = format!("{} of ", subject.named_label(label));
        let at = lines.iter().position(|line| line.starts_with(&head));
        if own(before) == own(after) {
            assert_eq!(at, None, "{lines:?}");
            continue;
        }
        let at = at.expect("a line on the label");
        let block: Vec<&String> = lines[at + 1..].iter().take_while(|line| line.starts_with("  ")).collect();
        let left = block.iter().any(|line| line.starts_with("  and by "));
        let said: Vec<Said> = block
            .iter()
            .filter(|line| !line.starts_with("  and by "))
            .map(|line| said(subject, line))
            .collect();
        let asked = own(before).iter().chain(&own(after)).fold(0, |asked, row| asked | row.care);
        let (mut count, mut word) = (0usize, 0u16);
        loop {
            for result in [false, true] {
                let next = [before, after].map(|image| goes(image, label, word, result));
                let covering = said.iter().filter(|said| {
                    word & said.care == said.values && said.result.is_none_or(|own| own == result)
                });
                let covering: Vec<&Said> = covering.collect();
                assert!(covering.iter().all(|said| said.next == next), "{lines:?}");
                assert!(left || (next[0] != next[1]) != covering.is_empty(), "{lines:?} {word:04X}");
                count += usize::from(next[0] != next[1]);
            }
            word = word.wrapping_sub(asked) & asked;
            if word == 0 {
                break;
            }
        }
        let is_function = before.labels[usize::from(label)].kind == plain::FUNCTION_CALL;
        let share = (1 << 16 >> asked.count_ones()) * count / if is_function { 1 } else { 2 };
        let share = office::problem::thousands(share);
        match count {
            0 => assert!(
                lines[at].ends_with(" has other rows, and goes by every word where it went"),
                "{lines:?}"
            ),
            _ => {
                let told = format!(
                    " goes elsewhere by {share} of {}:",
                    if is_function { "131,072 words and results" } else { "65,536 words" }
                );
                assert!(lines[at].ends_with(&told), "{lines:?} {told}");
            }
        }
        differing += count;
    }
    differing
}

/// A random patch of the image of a random chart, or of any image: the rows are in their places, and the difference is exactly the patch.
#[test]
fn a_patch_and_then_the_difference_say_the_same() {
    let (mut patches, mut differing) = (0, 0);
    for seed in 0..1_500 {
        let random = &mut Random::new(seed);
        let (chart, before) = match seed % 3 {
            0 => (None, images::small(random)),
            _ => {
                let (records, image) = images::translated(random);
                (Some(text_of(&records)), image)
            }
        };
        if before.labels.len() < 3 {
            continue;
        }
        let image = Image::read(text_of(&before.frames())).expect("an accepted image");
        let subject = match chart.filter(|_| seed % 3 == 2) {
            Some(chart) => Subject::with_names(image, Plan::read(from_bytes(&chart)).expect("a chart"))
                .expect("its labels"),
            None => Subject::without_names(image),
        };
        let (mut rows, mut lines, mut asked) =
            (subject.image.rows().collect::<Vec<Row>>(), String::new(), Vec::<Row>::new());
        for _ in 0..random.within(1, 4) {
            let row = some_row(random, &before, &rows);
            if asked.iter().any(|own| own.asks_as(&row)) {
                continue;
            }
            let removed = random.once_in(3) && rows.iter().any(|own| own.asks_as(&row));
            lines.push_str(&match removed {
                true => format!("remove {}\n", words::asks(&subject, &row)),
                false => format!("{}\n", words::row(&subject, &row)),
            });
            expected(&mut rows, row, removed);
            asked.push(row);
        }
        if rows.len() > 1_024 {
            let problem = patched(&subject, lines.as_bytes()).expect_err("too many rows");
            assert_eq!(problem.refusal.map(|refusal| refusal.number()), Some(11));
            continue;
        }
        let patched =
            patched(&subject, lines.as_bytes()).unwrap_or_else(|problem| panic!("{seed} {problem}\n{lines}"));
        let after = plain::Image { rows: plain_rows(&rows), ..before.clone() };
        assert_eq!(patched.image.text, text_of(&after.frames()), "{seed}\n{lines}");
        let told = differences(&subject, &patched.image).expect("two images");
        differing += tells_exactly(&subject, &told, &before, &after);
        patches += 1;
        assert_eq!(told.is_empty(), before == after);
    }
    assert!(patches > 1_300 && differing > 5_000, "{patches} {differing}");
}

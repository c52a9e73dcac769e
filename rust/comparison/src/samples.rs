//! Charts and an image of chosen size, for benchmarks, the measure of memory and the comparison.

pub mod found;
mod named;
pub mod worst;
mod worst_charts;
mod worst_images;
mod worst_joined;
mod worst_tables;

pub use named::{falling_conditions, named_charts};
use reference::answer::Refusal;
use reference::frames::Frame;
pub use worst_images::rows_that_match_from_home;

/// Chart P of the paper.
pub fn chart_p() -> Vec<Frame> {
    vec![
        [0, 1, 0, 1, 0, 0, 0, 0, 0, 0],
        [2, 1, 2, 2, 0, 0, 0, 0, 0, 1],
        [1, 1, 0, 0, 0, 0, 0, 0, 0, 0],
        [0, 2, 0, 4, 0, 0, 0, 0, 0, 0],
        [3, 2, 0, 5, 6, 0, 0, 0, 0, 0],
        [1, 2, 0, 0, 0, 0, 0, 0, 0, 0],
        [2, 2, 2, 5, 0, 0, 0, 0, 0, 2],
    ]
}

/// An operation, and a condition that leads from it to one of two operations of the same mask: these act alike.
pub fn alike() -> Vec<Frame> {
    vec![
        [0, 1, 0, 1, 0, 0, 0, 0, 0, 0],
        [2, 1, 0, 2, 0, 0, 0, 0, 0, 1],
        [3, 1, 0, 3, 4, 0, 0, 0, 0, 0],
        [2, 1, 0, 5, 0, 0, 0, 0, 0, 2],
        [2, 1, 0, 5, 0, 0, 0, 0, 0, 2],
        [1, 1, 0, 0, 0, 0, 0, 0, 0, 0],
    ]
}

/// Scheme 1 calls scheme 2 with mask 1, and scheme 2 calls itself with mask 2; scheme 3 is the handler, one operation with mask 4.
/// Each operation writes 1.
pub fn with_handler() -> Vec<Frame> {
    vec![
        [0, 1, 0, 1, 0, 0, 0, 0, 0, 0],
        [2, 1, 2, 2, 0, 2, 0, 0, 0, 1],
        [1, 1, 0, 0, 0, 0, 0, 0, 0, 0],
        [0, 2, 0, 4, 0, 0, 0, 0, 0, 0],
        [2, 2, 2, 5, 0, 2, 0, 0, 0, 2],
        [1, 2, 0, 0, 0, 0, 0, 0, 0, 0],
        [0, 3, 1, 7, 0, 0, 0, 0, 0, 0],
        [2, 3, 0, 8, 0, 2, 0, 0, 0, 4],
        [1, 3, 0, 0, 0, 0, 0, 0, 0, 0],
    ]
}

/// So many words, the same each time.
pub fn words(count: usize) -> Vec<u16> {
    let mut seed = 1u32;
    let word = |_| {
        seed = seed.wrapping_mul(1_664_525).wrapping_add(1_013_904_223);
        (seed >> 16) as u16
    };
    (0..count).map(word).collect()
}

fn begin(records: &mut Vec<Frame>, scheme: u8) {
    let next = records.len() as u8 + 1;
    records.push([0, scheme, 0, next, 0, 0, 0, 0, 0, 0]);
}

fn end(records: &mut Vec<Frame>, scheme: u8) {
    records.push([1, scheme, 0, 0, 0, 0, 0, 0, 0, 0]);
}

/// An operation that leads to the node after it, with a mask and a result of its own.
fn operation(records: &mut Vec<Frame>, scheme: u8, called: u8) {
    let at = records.len() as u8;
    records.push([2, scheme, called, at + 1, 0, at % 3, 0, 0, 1, at]);
}

/// A function; both its arcs lead to the node after it.
fn function(records: &mut Vec<Frame>, scheme: u8, called: u8) {
    let next = records.len() as u8 + 1;
    records.push([4, scheme, called, next, next, 0, 0, 0, 0, 0]);
}

/// Conditions, both arcs of each leading to the node after it.
fn conditions(records: &mut Vec<Frame>, scheme: u8, numbers: impl Iterator<Item = u8>) {
    for number in numbers {
        let next = records.len() as u8 + 1;
        records.push([3, scheme, number, next, next, 0, 0, 0, 0, 0]);
    }
}

/// One scheme of so many operations in a row: two labels more than operations.
pub fn operations(count: usize) -> Vec<Frame> {
    let mut records = Vec::new();
    begin(&mut records, 1);
    for _ in 0..count {
        operation(&mut records, 1, 0);
    }
    end(&mut records, 1);
    records
}

/// B9: one operation before ten different conditions, 1,024 rows of one label.
pub fn one_label() -> Vec<Frame> {
    let mut records = Vec::new();
    begin(&mut records, 1);
    operation(&mut records, 1, 0);
    conditions(&mut records, 1, 0..10);
    end(&mut records, 1);
    records
}

/// 229 labels and 1,024 rows.
pub fn most_rows() -> Vec<Frame> {
    let mut records = Vec::new();
    begin(&mut records, 1);
    for exponent in [9, 8, 5] {
        operation(&mut records, 1, 0);
        conditions(&mut records, 1, 0..exponent);
    }
    for _ in 0..224 {
        operation(&mut records, 1, 0);
    }
    end(&mut records, 1);
    records
}

/// 200 labels and 1,024 rows: some operations lead on through conditions, the others to the next operation.
pub fn many_rows() -> Vec<Frame> {
    let before_conditions = [9, 8, 5, 4, 3, 2, 1, 1, 1, 1];
    let mut records = Vec::new();
    begin(&mut records, 1);
    for exponent in before_conditions {
        operation(&mut records, 1, 0);
        conditions(&mut records, 1, 0..exponent);
    }
    for _ in before_conditions.len()..198 {
        operation(&mut records, 1, 0);
    }
    end(&mut records, 1);
    records
}

/// Sixteen schemes and 256 nodes. Each scheme but the last calls the next one as a function and then by an operation.
pub fn most_schemes() -> Vec<Frame> {
    let mut records = Vec::new();
    for scheme in 1..=16 {
        begin(&mut records, scheme);
        conditions(&mut records, scheme, 0..2);
        if scheme < 16 {
            function(&mut records, scheme, scheme + 1);
            operation(&mut records, scheme, scheme + 1);
        }
        while records.len() % 16 != 15 {
            operation(&mut records, scheme, 0);
        }
        end(&mut records, scheme);
    }
    records
}

/// What stands before the longest row of conditions that a chart can have.
#[derive(Clone, Copy, Debug)]
pub enum Before {
    Begin,
    Operation,
    Function,
}

/// 256 nodes, as many of them conditions in a row as can be, of numbers 0 to `different` - 1 in turn. Such a row is the
/// longest path that a translator can go down. They stand in scheme 2.
pub fn longest_path(before: Before, different: u8) -> Vec<Frame> {
    let mut records = Vec::new();
    begin(&mut records, 1);
    operation(&mut records, 1, 2);
    end(&mut records, 1);
    begin(&mut records, 2);
    match before {
        Before::Begin => {}
        Before::Operation => operation(&mut records, 2, 2),
        Before::Function => function(&mut records, 2, 2),
    }
    let count = 255 - records.len();
    conditions(&mut records, 2, (0..different).cycle().take(count));
    end(&mut records, 2);
    records
}

/// The last node of a chart of 256.
const TOP: u8 = 255;

/// 256 nodes of one scheme: Begin leads to `first`, End is node 1, and of the others `next` tells the kind's arcs.
fn all_of(kind: u8, first: u8, next: impl Fn(u8) -> [u8; 2]) -> Vec<Frame> {
    let mut records = vec![[0, 1, 0, first, 0, 0, 0, 0, 0, 0], [1, 1, 0, 0, 0, 0, 0, 0, 0, 0]];
    for at in 2..=TOP {
        let [zero, one] = next(at);
        let number = if kind == 3 { (at - 2) % 16 } else { 0 };
        records.push([kind, 1, number, zero, one, 0, 0, 0, 0, 0]);
    }
    records
}

fn all_conditions(first: u8, next: impl Fn(u8) -> [u8; 2]) -> Vec<Frame> {
    all_of(3, first, next)
}

fn all_operations(first: u8, next: impl Fn(u8) -> u8) -> Vec<Frame> {
    all_of(2, first, |at| [next(at), 0])
}

/// A chart that takes long to search for circles or for nodes that are cut off, with its refusal if it has one.
pub struct Slow {
    pub name: &'static str,
    pub records: Vec<Frame>,
    pub refusal: Option<Refusal>,
}

/// Lines of conditions and operations with the order of frames and against it, with circles before and behind them.
pub fn slow_charts() -> Vec<Slow> {
    let slow = |name, refusal, records| Slow { name, records, refusal };
    vec![
        slow(
            "circle above falling conditions",
            Some(Refusal::Circle(254)),
            all_conditions(TOP, |at| match at {
                TOP => [TOP - 1, TOP - 2],
                254 => [TOP - 2, TOP],
                _ => [at - 1; 2],
            }),
        ),
        slow(
            "early circle, then falling conditions",
            Some(Refusal::Circle(254)),
            all_conditions(2, |at| match at {
                2 => [TOP, TOP - 2],
                3 => [1; 2],
                254 => [TOP, TOP - 2],
                _ => [at - 1; 2],
            }),
        ),
        slow(
            "line to its own circle",
            Some(Refusal::Circle(255)),
            all_conditions(2, |at| [at.saturating_add(1); 2]),
        ),
        slow(
            "ladder to its own circle",
            Some(Refusal::Circle(255)),
            all_conditions(2, |at| if at == TOP { [TOP, 1] } else { [at + 1, at.saturating_add(2)] }),
        ),
        slow(
            "line to a large circle",
            Some(Refusal::Circle(129)),
            all_conditions(2, |at| if at == TOP { [129; 2] } else { [at + 1; 2] }),
        ),
        slow(
            "line of operations, End cut off",
            Some(Refusal::CutOff(1)),
            all_operations(TOP, |at| if at == 2 { TOP } else { at - 1 }),
        ),
        slow("falling line of conditions", None, all_conditions(TOP, |at| [at - 1; 2])),
        slow(
            "rising line of conditions",
            None,
            all_conditions(2, |at| if at == TOP { [1; 2] } else { [at + 1; 2] }),
        ),
        slow("falling line of operations", None, all_operations(TOP, |at| at - 1)),
    ]
}

/// The largest image: sixteen schemes, 256 labels, 1,024 rows. Label 2 calls itself through scheme 2 until the stack is
/// full; the labels after it are plain.
pub fn largest_image() -> Vec<Frame> {
    let mut frames = vec![[0x0F, 16, 255, 4, 0, 0, 0, 0, 0, 0]];
    for scheme in 1..=16 {
        let entry = match scheme {
            1 => 2,
            2 => 3,
            _ => 1,
        };
        frames.push([0x10, scheme, entry, 0, 0, 0, 0, 0, 0, 0]);
    }
    frames.push([0x11, 0, 4, 0, 1, 0, 0, 0, 0, 0]);
    frames.push([0x11, 1, 3, 0, 0, 0, 0, 0, 0, 0]);
    frames.push([0x11, 2, 1, 2, 1, 0, 0, 0, 0, 1]);
    for label in 3..=255 {
        let (kind, called) = if label == 3 { (1, 2) } else { (0, 0) };
        frames.push([0x11, label, kind, called, 2, 0, 0, 0, 0, label]);
    }
    for row in 0..1024 {
        let from = (2 + row / 4).min(255) as u8;
        let next = match from {
            2 => 0,
            255 => 1,
            _ => from + 1,
        };
        frames.push([0x12, from, 0, 3, 0, row as u8 % 4, 2, next, 0, 0]);
    }
    frames
}

#[cfg(test)]
mod tests {
    use super::*;
    use reference::entry::{chart_from_text, image_from_text, translated};
    use reference::frames::{text_of, CHARACTERS, IMAGE_TEXT};

    fn frame_count(records: &[Frame]) -> usize {
        translated(&text_of(records)).expect("a valid chart").len() / CHARACTERS
    }

    #[test]
    fn the_charts_are_valid_and_as_large_as_said() {
        assert_eq!(frame_count(&chart_p()), 12);
        assert_eq!(frame_count(&operations(198)), 1 + 1 + 200 + 198);
        assert_eq!(frame_count(&operations(254)), 1 + 1 + 256 + 254);
        assert_eq!(frame_count(&one_label()), 1 + 1 + 3 + 1024);
        assert_eq!(frame_count(&most_rows()), 1 + 1 + 229 + 1024);
        assert_eq!(frame_count(&many_rows()), 1 + 1 + 200 + 1024);
        assert_eq!(most_schemes().len(), 256);
        assert!(frame_count(&most_schemes()) > 200);
        for before in [Before::Begin, Before::Operation, Before::Function] {
            for different in [1, 8] {
                let records = longest_path(before, different);
                assert_eq!(records.len(), 256);
                assert!(frame_count(&records) > 5);
            }
        }
    }

    #[test]
    fn the_slow_charts_are_large_and_refused_as_said() {
        for slow in slow_charts() {
            assert_eq!(slow.records.len(), 256, "{}", slow.name);
            assert_eq!(chart_from_text(&text_of(&slow.records)).err(), slow.refusal, "{}", slow.name);
        }
    }

    #[test]
    fn the_image_is_accepted() {
        let text = text_of(&largest_image());
        assert_eq!(text.len(), IMAGE_TEXT);
        image_from_text(&text).expect("an accepted image");
    }
}

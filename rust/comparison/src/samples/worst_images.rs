//! Images, states and words constructed for the loops of the image check and of a tick on its text.

use super::worst::WORDS;
use reference::image::{Image, Label, Row, FUNCTION_CALL, OPERATION_CALL, PLAIN, ROWS};
use reference::state::{Shape, State};

/// Label 2 has all rows; label 3 is of scheme 1 and calls scheme 2.
const BUSY: u8 = 2;
const BOTTOM: u8 = 3;
const RETURN_LABEL: u8 = 1;

/// Sixteen schemes and 256 labels, all but the first two of one kind, each calling scheme 2 where it calls; BOTTOM belongs to
/// scheme 1, the others to `owner`. Entries lead to the labels of End.
fn filled(kind: u8, owner: u8, row: impl Fn(usize) -> Row) -> Image {
    let label = Label { kind, called: if kind == PLAIN { 0 } else { 2 }, owner, result: 2, mask: u32::MAX };
    let mut labels = vec![label; 256];
    (labels[0], labels[1]) = (Label::ZERO, Label::ONE);
    labels[usize::from(BOTTOM)].owner = 1;
    let mut entries = vec![1; 16];
    entries[0] = 0;
    Image { handler: 0, entries, labels, rows: (0..ROWS).map(row).collect() }
}

/// A row that any word matches.
fn any_word(from: u8, function_bit: u8, next: u8) -> Row {
    Row { from, care: 0, values: 0, function_bit, next }
}

/// A plain label of scheme 1 that leads to itself by its last row alone; no other row matches word 0.
pub fn plain_rows() -> Image {
    filled(PLAIN, 1, |k| {
        let row = any_word(BUSY, 2, BUSY);
        if k + 1 < ROWS {
            Row { care: 0x8000, values: 0x8000, ..row }
        } else {
            row
        }
    })
}

/// Functions of scheme 2: all rows match any word, but only the last two match a result of 0, which a call leaves. They lead
/// to the return on a word with bit 0 clear, and else back to the label.
pub fn function_rows() -> Image {
    filled(FUNCTION_CALL, 2, |k| match ROWS - k {
        2 => Row { care: 1, ..any_word(BUSY, 0, RETURN_LABEL) },
        1 => Row { care: 1, values: 1, ..any_word(BUSY, 0, BUSY) },
        _ => any_word(BUSY, 1, RETURN_LABEL),
    })
}

/// The same rows, of which the first matches a result of 0 too. So a search that goes on until a second row matches goes through nearly
/// all of them before they are compared.
fn function_rows_at_both_ends() -> Image {
    let mut image = function_rows();
    image.rows[0].function_bit = 0;
    image
}

/// Rows of operations, which no bit decides.
fn operation_rows() -> Image {
    filled(OPERATION_CALL, 2, |_| any_word(BUSY, 2, RETURN_LABEL))
}

/// A care mask of ever more ones, row by row up to fifteen, without condition 0.
fn rising(k: usize) -> u16 {
    ((1 << (k * 16 / ROWS)) - 1) << 1
}

/// A plain label of scheme 1 that leads to itself: all rows match word 0, none with fewer ones than the row before it.
fn plain_rows_that_match() -> Image {
    filled(PLAIN, 1, |k| Row { care: rising(k), ..any_word(BUSY, 2, BUSY) })
}

/// The same label, which home leads to.
pub fn rows_that_match_from_home() -> Image {
    let mut image = plain_rows_that_match();
    image.entries[0] = BUSY;
    image
}

/// Functions of scheme 2: nearly all rows match words 0 and 1 and a result of 0, none with fewer ones than the row before it. The
/// last two have most: they lead to the return on word 0, and back to the label on word 1.
fn function_rows_that_match() -> Image {
    filled(FUNCTION_CALL, 2, |k| match ROWS - k {
        2 => Row { care: u16::MAX, ..any_word(BUSY, 0, RETURN_LABEL) },
        1 => Row { care: u16::MAX, values: 1, ..any_word(BUSY, 0, BUSY) },
        _ => Row { care: rising(k), ..any_word(BUSY, 0, RETURN_LABEL) },
    })
}

/// Rows spread over all labels, so that none has many.
fn spread_rows() -> Image {
    filled(FUNCTION_CALL, 2, |k| {
        let from = (BOTTOM + 1).max((k / 4) as u8);
        any_word(from, (k % 2) as u8, RETURN_LABEL)
    })
}

pub fn worst_images() -> Vec<(&'static str, Image)> {
    let mut late = function_rows();
    late.rows[ROWS - 1].next = 0;
    vec![
        ("1,024 plain rows of one label", plain_rows()),
        ("1,024 function rows of one label", function_rows()),
        ("1,024 function rows, the last one wrong", late),
        ("1,024 operation rows of one label", operation_rows()),
        ("1,024 function rows of 252 labels", spread_rows()),
    ]
}

/// A full stack of 32: the bottom, labels that each call, and the return on top.
pub fn full_stack(shape: Shape, bottom: u8, kept: u8) -> State {
    let mut places = [kept; 32];
    (places[0], places[31]) = (bottom, RETURN_LABEL);
    shape.state(32, &places)
}

/// Thirty returns, each over all rows, the last of which comes back to the label; then calls and returns by turns.
fn returns_first() -> Vec<u16> {
    (0..WORDS).map(|k| u16::from(k >= 29)).collect()
}

type Ticks = (&'static str, Image, State, Vec<u16>);

pub fn worst_ticks() -> Vec<Ticks> {
    let plain = plain_rows();
    let at_top = |label| State { results: [true; 16], ..plain.shape().state(32, &[label]) };
    let functions = function_rows();
    let deep = full_stack(functions.shape(), BOTTOM, BUSY);
    let calling = functions.shape().state(32, &deep.places[..31]);
    let mut full = deep;
    full.places[31] = BUSY;
    let handled = Image { handler: 16, ..function_rows() };
    let mut rebound = full;
    for number in 2..16 {
        rebound.serving[number - 1] = if number == 2 { 3 } else { 2 };
    }
    vec![
        ("last of 1,024 plain rows", plain_rows(), at_top(BUSY), vec![0; WORDS]),
        ("1,024 plain rows that match", plain_rows_that_match(), at_top(BUSY), vec![0; WORDS]),
        ("no row of 1,024", plain_rows_only(), at_top(BUSY), vec![0; WORDS]),
        ("deep return, last but one of 1,024 function rows", function_rows(), deep, returns_first()),
        ("deep return, last of 1,024 function rows", function_rows(), deep, vec![1; WORDS]),
        ("deep return, 1,024 function rows that match", function_rows_that_match(), deep, returns_first()),
        (
            "deep return, first and last of 1,024 function rows",
            function_rows_at_both_ends(),
            deep,
            returns_first(),
        ),
        ("deep call", function_rows(), calling, vec![1; WORDS]),
        ("deep return, operations", operation_rows(), deep, vec![0; WORDS]),
        ("drop of a full stack", handled.clone(), full, vec![1; WORDS]),
        ("drop of a full stack, its numbers rebound", handled, rebound, vec![1; WORDS]),
    ]
}

/// Not even the last row matches word 0.
fn plain_rows_only() -> Image {
    let mut image = plain_rows();
    image.rows[ROWS - 1] = image.rows[0];
    image
}

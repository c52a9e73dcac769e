//! The sizes of paper 01. Buffers of these lengths are never refused with 16.

/// The characters of a line: 22 digits and a line feed.
pub const LINE: usize = 23;
/// The bytes of a node record.
pub const RECORD: usize = 10;
/// The most nodes of a chart.
pub const NODES: usize = 256;
/// The longest chart text, in characters.
pub const CHART_TEXT: usize = NODES * LINE;
/// The longest list of node records, in bytes.
pub const RECORDS: usize = NODES * RECORD;
/// The most schemes of a chart; they are numbered from 1.
pub const SCHEMES: usize = 16;
/// The conditions of a word, numbered from 0.
pub const CONDITIONS: usize = 16;
/// The micro operations of a mask, numbered from 0.
pub const OPERATIONS: usize = 32;
/// The most labels of an image, numbered from 0.
pub const LABELS: usize = 256;
/// The most rows of an image.
pub const ROWS: usize = 1_024;
/// The most frames of an image: a header, the entries, the labels and the rows.
pub const FRAMES: usize = 1 + SCHEMES + LABELS + ROWS;
/// The longest image text, in characters.
pub const IMAGE_TEXT: usize = FRAMES * LINE;
/// The most frames of a little chart.
pub const LITTLE_FRAMES: usize = 4;
/// The longest text of a little chart, in characters.
pub const LITTLE_TEXT: usize = LITTLE_FRAMES * LINE;
/// The bytes of a frame in a prepared table.
pub const FRAME: usize = 10;
/// The largest prepared table, in bytes.
pub const TABLE: usize = FRAMES * FRAME;
/// The most places of a stack.
pub const PLACES: usize = 32;
/// The spindles of a head, numbered from 0.
pub const SPINDLES: usize = 4;
/// The places that the spindles have together.
pub const STORE: usize = 64;
/// The most words of a priced run.
pub const PRICED_WORDS: usize = 65_536;
/// The most ticks times conditions over whose lists of words it is counted how often the stack fills.
pub const COUNTED_BITS: usize = 16;
/// The most ticks of such a list.
pub const COUNTED_TICKS: usize = 65_536;

#[cfg(test)]
mod tests {
    use super::*;

    #[test]
    fn the_sizes_are_those_of_the_header() {
        assert_eq!((CHART_TEXT, IMAGE_TEXT, LITTLE_TEXT), (5_888, 29_831, 92));
        assert_eq!((RECORDS, TABLE), (2_560, 12_970));
    }
}

//! Ticks on a table. Any bytes with a header in order hold an image, though perhaps none that the image check lets pass;
//! so nothing is taken for granted here that the check would have seen to.

use crate::answer::{refuse_if, Refusal};
use crate::frames::Frame;
use crate::image::{handler_stands, Label, Row, FUNCTION_CALL, HOME, OPERATION_CALL, PLAIN, RETURN, ROWS};
use crate::machine::Advanced;
use crate::state::{leave_alone, Shape, State};

/// The image that a table holds; `handler` is 0 for none, `rows[l]` are the rows of label l.
#[derive(Clone, Debug)]
pub struct Held {
    pub handler: u8,
    pub entries: Vec<u8>,
    pub labels: Vec<Label>,
    pub rows: Vec<Vec<Row>>,
}

/// How many schemes and rows a table's header tells, its highest label, and the handler.
struct Header {
    schemes: usize,
    last: usize,
    rows: usize,
    handler: u8,
}

impl Header {
    fn of(header: &Frame) -> Header {
        Header {
            schemes: usize::from(header[1]),
            last: usize::from(header[2]),
            rows: usize::from(u16::from_be_bytes([header[3], header[4]])),
            handler: header[5],
        }
    }

    fn stands(&self) -> bool {
        let counts = (1..=16).contains(&self.schemes) && self.last > 0 && self.rows <= ROWS;
        counts && handler_stands(self.handler, self.schemes)
    }

    /// How many frames the table has.
    fn end(&self) -> usize {
        1 + self.schemes + (self.last + 1) + self.rows
    }
}

impl Held {
    /// The image that these bytes hold, or refusal 11.
    pub fn of(bytes: &[u8]) -> Result<Held, Refusal> {
        let (frames, _) = bytes.as_chunks::<10>();
        refuse_if(Refusal::BadHeader, frames.is_empty())?;
        let header = Header::of(&frames[0]);
        refuse_if(Refusal::BadHeader, !header.stands() || frames.len() < header.end())?;
        let table = &frames[..header.end()];
        let labels = &table[1 + header.schemes..][..header.last + 1];
        Ok(Held {
            handler: header.handler,
            entries: table[1..=header.schemes].iter().map(|frame| frame[2]).collect(),
            labels: (0..labels.len()).map(|l| label_of(l, &labels[l], header.schemes)).collect(),
            rows: (0..labels.len()).map(|l| rows_of(l, labels, table)).collect(),
        })
    }

    fn label(&self, number: u8) -> Label {
        self.labels.get(usize::from(number)).copied().unwrap_or(Label::NONE)
    }

    pub fn shape(&self) -> Shape<'_> {
        Shape { labels: &self.labels, schemes: self.entries.len(), handler: self.handler }
    }

    /// Scheme 0 counts as scheme 1, and one above the last is entered at label 0.
    pub fn entry(&self, scheme: u8) -> u8 {
        self.entries.get(usize::from(scheme).max(1) - 1).copied().unwrap_or(0)
    }

    /// Whether a state fits the image (15).
    pub fn fits(&self, state: &State) -> bool {
        let (size, depth) = (usize::from(state.size), usize::from(state.depth));
        (1..=32).contains(&size)
            && (1..=size).contains(&depth)
            && (depth..32).all(|at| (state.places[at], state.numbers[at], state.servers[at]) == (0, 0, 0))
            && (0..depth).all(|at| usize::from(state.places[at]) < self.labels.len())
            && self.bottom_stands(state)
            && (1..depth).all(|at| self.stands_on(state, at))
            && (2..=16).all(|number| self.may_serve(state.serving[number - 1], number))
    }

    /// Whether the bottom is scheme 1's or the handler's, and remembers that number as called and as served by.
    fn bottom_stands(&self, state: &State) -> bool {
        let scheme = match state.places[0] {
            bottom if self.handles(bottom) => self.handler,
            bottom if self.label(bottom).owner == 1 => 1,
            _ => return false,
        };
        (state.numbers[0], state.servers[0]) == (scheme, scheme)
    }

    fn callable(&self, scheme: u8) -> bool {
        (2..=self.entries.len()).contains(&usize::from(scheme))
    }

    /// Numbers of schemes that can be called may be served by each other's; any other number, and the handler's, is its own.
    fn may_serve(&self, scheme: u8, number: usize) -> bool {
        let own = number > self.entries.len() || number == usize::from(self.handler);
        if own {
            usize::from(scheme) == number
        } else {
            self.callable(scheme)
        }
    }

    /// Whether there is a handler and this label at the bottom means that it is there: its own label, or label 1.
    pub fn handles(&self, bottom: u8) -> bool {
        self.handler != 0 && (bottom == 1 || self.label(bottom).owner == self.handler)
    }

    /// Whether a place may stand above the one below: that one calls the number remembered here, and the label is 1 or of the scheme
    /// remembered, which can be called.
    fn stands_on(&self, state: &State, at: usize) -> bool {
        let (kept, above) = (self.label(state.places[at - 1]), state.places[at]);
        let (number, server) = (state.numbers[at], state.servers[at]);
        matches!(kept.kind, OPERATION_CALL | FUNCTION_CALL)
            && kept.called == number
            && self.callable(server)
            && (above == 1 || self.label(above).owner == server)
    }

    /// The rows of a label that match. Function bits decide only over rows of a function call's label.
    pub fn matching(&self, label: u8, results: &[bool; 16], word: u16) -> Vec<Row> {
        let here = self.label(label);
        let bit = u8::from(results[usize::from(here.called).max(1) - 1]);
        let mut rows = self.rows.get(usize::from(label)).cloned().unwrap_or_default();
        rows.retain(|row| word & row.care == row.values);
        rows.retain(|row| here.kind != FUNCTION_CALL || row.function_bit == 2 || row.function_bit == bit);
        rows
    }

    /// The row that a label takes. A matching row gives way to a later one that tests no fewer conditions.
    pub fn taken(&self, label: u8, results: &[bool; 16], word: u16) -> Option<Row> {
        let mut taken: Option<Row> = None;
        for row in self.matching(label, results, word) {
            if taken.is_none_or(|before| before.care.count_ones() <= row.care.count_ones()) {
                taken = Some(row);
            }
        }
        taken
    }

    /// The label whose row a tick takes, if it takes one: the one at the top, or beneath a return.
    pub fn row_label(&self, state: &State) -> Option<u8> {
        let top = usize::from(state.depth) - 1;
        match self.label(state.places[top]).kind {
            PLAIN => Some(state.places[top]),
            RETURN if top > 0 => Some(state.places[top - 1]),
            _ => None,
        }
    }

    /// The next label by the row taken, or refusal 18.
    fn next(&self, label: u8, results: &[bool; 16], word: u16) -> Result<u8, Refusal> {
        self.taken(label, results, word).map(|row| row.next).ok_or(Refusal::NoRow { ticks: 0 })
    }

    /// One tick of a state with a depth of 1 to its size, or 17 or 18. A result goes to the bit of the number at the top, and a call
    /// clears the bit of the number called and opens the scheme that serves it; number 0 counts as 1.
    /// Where there is a handler, a call that finds the stack full drops all for it. A return at the bottom leads to label 0, also in
    /// a table without a handler, where only damage leads to one.
    pub fn tick(&self, state: &State, word: u16) -> Result<Advanced, Refusal> {
        let top = usize::from(state.depth) - 1;
        let here = self.label(state.places[top]);
        let results = results_after(&here, state.numbers[top], &state.results);
        let mut after = State { results, ..*state };
        match here.kind {
            HOME => after.places[top] = self.entry(1),
            OPERATION_CALL | FUNCTION_CALL if state.depth == state.size => {
                if self.handler == 0 || self.handles(state.places[0]) {
                    return Err(Refusal::Full { ticks: 0 });
                }
                leave_alone(&mut after, self.entry(self.handler), self.handler);
                after.results[usize::from(self.handler) - 1] = false;
                return Ok(Advanced { mask: here.mask, code: 0x60, state: after });
            }
            OPERATION_CALL | FUNCTION_CALL => {
                let bit = usize::from(here.called).max(1) - 1;
                let server = state.serving[bit];
                after.places[top + 1] = self.entry(server);
                (after.numbers[top + 1], after.servers[top + 1]) = (here.called, server);
                after.depth += 1;
                after.results[bit] = false;
            }
            RETURN if top == 0 => leave_alone(&mut after, 0, 1),
            RETURN => {
                after.places[top - 1] = self.next(state.places[top - 1], &after.results, word)?;
                (after.places[top], after.numbers[top], after.servers[top]) = (0, 0, 0);
                after.depth -= 1;
            }
            _ => after.places[top] = self.next(state.places[top], &after.results, word)?,
        }
        Ok(Advanced { mask: here.mask, code: code_of(&here), state: after })
    }
}

/// Labels 0 and 1 are what they are, whatever their frames hold.
fn label_of(number: usize, frame: &Frame, schemes: usize) -> Label {
    match number {
        0 => Label::ZERO,
        1 => Label::ONE,
        _ => Label {
            kind: if frame[2] > 2 { PLAIN } else { frame[2] },
            called: if usize::from(frame[3]) > schemes { 0 } else { frame[3] },
            owner: frame[4],
            result: frame[5],
            mask: u32::from_be_bytes([frame[6], frame[7], frame[8], frame[9]]),
        },
    }
}

/// The rows of a label: from the frame that is noted for the label before it up to that noted for it, or to the table's end.
fn rows_of(number: usize, labels: &[Frame], table: &[Frame]) -> Vec<Row> {
    if number < 2 {
        return Vec::new();
    }
    let noted = |frame: &Frame| usize::from(u16::from_le_bytes([frame[0], frame[1]]));
    let first = noted(&labels[number - 1]);
    let end = noted(&labels[number]).min(table.len());
    (first..end).map(|at| row_of(number as u8, &table[at])).collect()
}

fn row_of(from: u8, frame: &Frame) -> Row {
    Row {
        from,
        care: u16::from_be_bytes([frame[2], frame[3]]),
        values: u16::from_be_bytes([frame[4], frame[5]]),
        function_bit: frame[6],
        next: frame[7],
    }
}

/// The result bits after a tick on a label of a scheme that was called by this number; 0 counts as 1.
fn results_after(label: &Label, number: u8, results: &[bool; 16]) -> [bool; 16] {
    let mut after = *results;
    if label.result != 0 {
        after[usize::from(number).max(1) - 1] = label.result == 2;
    }
    after
}

fn code_of(label: &Label) -> u8 {
    match label.kind {
        OPERATION_CALL => 0x10 + label.called,
        FUNCTION_CALL => 0x40 + label.called,
        RETURN => 0x03,
        HOME => 0x04,
        _ => 0x00,
    }
}

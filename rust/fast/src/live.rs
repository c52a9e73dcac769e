//! Tables prepared, and live ticks on them as they stand: nothing is copied or taken apart.

use super::image::Parts;
use super::stop::Stop;
use interface::Tick;
use reference::answer::{Answer, Refusal};
use reference::frames::Frame;
use reference::image::{FUNCTION_CALL, HOME, OPERATION_CALL, PLAIN, RETURN, ROWS};
use reference::state::{leave_alone, State};

/// Writes the table of an accepted image; there is room for it.
pub fn prepare(frames: &[Frame], parts: &Parts, table: &mut [Frame]) {
    table.copy_from_slice(frames);
    let first_label = 1 + parts.schemes;
    let first_row = first_label + parts.labels;
    let mut label = 0;
    for (at, row) in frames.iter().enumerate().skip(first_row) {
        while label < usize::from(row[1]) {
            note(&mut table[first_label + label], at);
            label += 1;
        }
    }
    for frame in &mut table[first_label + label..first_row] {
        note(frame, frames.len());
    }
}

fn note(frame: &mut Frame, at: usize) {
    let [low, high] = (at as u16).to_le_bytes();
    (frame[0], frame[1]) = (low, high);
}

fn noted(frame: &Frame) -> usize {
    usize::from(u16::from_le_bytes([frame[0], frame[1]]))
}

/// The place of a number in a list that begins with number 1; 0 counts as 1.
fn place(number: u8) -> usize {
    usize::from(number).max(1) - 1
}

/// The bit is that of the number which the scheme at the top was called by.
fn write_result(state: &mut State, top: usize, label: &Label) {
    if label.result != 0 {
        state.results[place(state.numbers[top])] = label.result == 2;
    }
}

/// A table that refusal 11 lets pass.
pub struct Table<'a> {
    frames: &'a [Frame],
    schemes: u8,
    last: u8,
    handler: u8,
}

#[derive(Clone, Copy)]
struct Label {
    kind: u8,
    called: u8,
    owner: u8,
    result: u8,
    mask: u32,
}

impl<'a> Table<'a> {
    pub fn of(bytes: &'a [u8]) -> Option<Table<'a>> {
        let (frames, _) = bytes.as_chunks::<10>();
        let header = frames.first()?;
        let [_, schemes, last, high, low, handler, ..] = *header;
        let rows = usize::from(u16::from_be_bytes([high, low]));
        let counts_stand = (1..=16).contains(&schemes) && last > 0 && rows <= ROWS;
        if !counts_stand || handler == 1 || handler > schemes {
            return None;
        }
        let end = 2 + usize::from(schemes) + usize::from(last) + rows;
        Some(Table { frames: frames.get(..end)?, schemes, last, handler })
    }

    fn frame(&self, label: u8) -> &Frame {
        &self.frames[1 + usize::from(self.schemes) + usize::from(label)]
    }

    fn label(&self, number: u8) -> Label {
        let mut label = Label { kind: PLAIN, called: 0, owner: 0, result: 0, mask: 0 };
        match number {
            0 => (label.kind, label.owner) = (HOME, 1),
            1 => label.kind = RETURN,
            _ if number <= self.last => {
                let f = self.frame(number);
                label.kind = if f[2] > FUNCTION_CALL { PLAIN } else { f[2] };
                label.called = if f[3] > self.schemes { 0 } else { f[3] };
                (label.owner, label.result) = (f[4], f[5]);
                label.mask = u32::from_be_bytes([f[6], f[7], f[8], f[9]]);
            }
            _ => {}
        }
        label
    }

    /// One above the last scheme is entered at label 0.
    fn entry(&self, scheme: u8) -> u8 {
        if scheme > self.schemes {
            return 0;
        }
        self.frames[1 + place(scheme)][2]
    }

    /// Whether the handler is at the bottom.
    fn handles(&self, bottom: u8) -> bool {
        self.handler != 0 && (bottom == 1 || self.label(bottom).owner == self.handler)
    }

    pub fn fits(&self, state: &State) -> bool {
        let depth = usize::from(state.depth);
        if !(1..=32).contains(&state.size) || depth == 0 || state.depth > state.size {
            return false;
        }
        let (filled, above) = state.places.split_at(depth);
        let handled = self.handles(filled[0]);
        let bottom = if handled { self.handler } else { 1 };
        if state.servers[0] != bottom {
            return false;
        }
        let (mut number, mut least, mut kept) = (bottom, 1, true);
        for (k, place) in filled.iter().enumerate() {
            let (label, server) = (self.label(*place), state.servers[k]);
            let belongs = label.owner == server || (*place == 1 && (k > 0 || handled));
            let serves = least <= server && server <= self.schemes && state.numbers[k] == number;
            if *place > self.last || !belongs || !serves || !kept {
                return false;
            }
            (number, least) = (label.called, 2);
            kept = matches!(label.kind, OPERATION_CALL | FUNCTION_CALL);
        }
        let zeros = &[0; 32][depth..];
        above == zeros
            && &state.numbers[depth..] == zeros
            && &state.servers[depth..] == zeros
            && super::all_serve(&state.serving, self.schemes, self.handler)
    }

    /// Refusals 15 and 22.
    pub fn rebind(&self, state: &mut State, number: usize, scheme: usize) -> Answer {
        let fits = self.fits(state);
        super::bind(fits, self.schemes, self.handler, state, number, scheme)
    }

    /// The rows of a label.
    fn rows(&self, label: u8) -> &[Frame] {
        if label < 2 || label > self.last {
            return &[];
        }
        let (first, end) = (noted(self.frame(label - 1)), noted(self.frame(label)));
        self.frames.get(first..end.min(self.frames.len())).unwrap_or(&[])
    }

    /// The next label by the row that tests most, the last of equals. With no bit the function bits decide nothing.
    fn next(&self, number: u8, bit: Option<bool>, word: u16) -> Result<u8, Stop> {
        let mut taken: Option<(u16, u8)> = None;
        for row in self.rows(number) {
            let care = u16::from_be_bytes([row[2], row[3]]);
            let values = u16::from_be_bytes([row[4], row[5]]);
            let matches =
                word & care == values && bit.is_none_or(|bit| row[6] == 2 || row[6] == u8::from(bit));
            if matches && taken.is_none_or(|(before, _)| before.count_ones() <= care.count_ones()) {
                taken = Some((care, row[7]));
            }
        }
        taken.map(|(_, next)| next).ok_or(Stop::NoRow)
    }

    /// The bit that decides rows of a function call's label.
    fn bit(results: &[bool; 16], label: &Label) -> Option<bool> {
        (label.kind == FUNCTION_CALL).then(|| results[place(label.called)])
    }

    /// Refusals 15, 17 and 18, or the mask and the code of one tick of a lent state.
    pub fn fitting_tick(&self, state: &mut State, word: u16) -> Result<Tick, Refusal> {
        if !self.fits(state) {
            return Err(Refusal::Unfit);
        }
        Ok(self.tick(state, word)?)
    }

    /// One tick of a lent state: the mask and the code, or 17 or 18 and the state as it was.
    pub fn tick(&self, state: &mut State, word: u16) -> Result<Tick, Stop> {
        let top = usize::from(state.depth) - 1;
        let label = self.label(state.places[top]);
        let code = match label.kind {
            PLAIN => {
                state.places[top] = self.next(state.places[top], None, word)?;
                0x00
            }
            OPERATION_CALL | FUNCTION_CALL => {
                if state.depth == state.size {
                    return self.drop_all(state, &label);
                }
                let server = state.serving[place(label.called)];
                state.places[top + 1] = self.entry(server);
                (state.numbers[top + 1], state.servers[top + 1]) = (label.called, server);
                state.depth += 1;
                write_result(state, top, &label);
                state.results[place(label.called)] = false;
                let base = if label.kind == OPERATION_CALL { 0x10 } else { 0x40 };
                return Ok(Tick { mask: label.mask, code: base + label.called });
            }
            HOME => {
                state.places[top] = self.entry(1);
                0x04
            }
            _ if top == 0 => {
                leave_alone(state, 0, 1);
                0x03
            }
            _ => {
                let below = top - 1;
                let bit = Self::bit(&state.results, &self.label(state.places[below]));
                state.places[below] = self.next(state.places[below], bit, word)?;
                (state.places[top], state.numbers[top], state.servers[top]) = (0, 0, 0);
                state.depth -= 1;
                0x03
            }
        };
        write_result(state, top, &label);
        Ok(Tick { mask: label.mask, code })
    }

    /// A call that finds the stack full: 17 or, for a handler that is not at the bottom, a drop.
    #[cold]
    fn drop_all(&self, state: &mut State, label: &Label) -> Result<Tick, Stop> {
        if self.handler == 0 || self.handles(state.places[0]) {
            return Err(Stop::Full);
        }
        write_result(state, usize::from(state.depth) - 1, label);
        state.results[usize::from(self.handler) - 1] = false;
        leave_alone(state, self.entry(self.handler), self.handler);
        Ok(Tick { mask: label.mask, code: 0x60 })
    }

    /// Ticks until the words end, or 17 or 18. The buffers are as long as the words.
    pub fn run(&self, state: &mut State, words: &[u16], masks: &mut [u32], codes: &mut [u8]) -> Answer {
        for (count, ((word, mask), code)) in words.iter().zip(masks).zip(codes).enumerate() {
            match self.tick(state, *word) {
                Ok(tick) => (*mask, *code) = (tick.mask, tick.code),
                Err(stop) => return Err(stop.after(count)),
            }
        }
        Ok(words.len())
    }
}

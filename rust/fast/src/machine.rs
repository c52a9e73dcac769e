//! The machine over an accepted image, taken apart once: each label with the range of its rows.

use super::image::Parts;
use super::stop::Stop;
use interface::{Cause, Tick};
use reference::answer::{Answer, Refusal};
use reference::frames::Frame;
use reference::image::{FUNCTION_CALL, HOME, OPERATION_CALL, PLAIN, RETURN, ROWS};
use reference::state::State;

#[derive(Clone, Copy, Default)]
struct Label {
    mask: u32,
    first: u16,
    end: u16,
    kind: u8,
    called: u8,
    owner: u8,
    result: u8,
}

#[derive(Clone, Copy, Default)]
struct Row {
    care: u16,
    values: u16,
    function_bit: u8,
    next: u8,
    /// How many conditions it tests.
    ones: u8,
    from: u8,
}

/// Result bits: packed for a run, which reads and writes many, or as a state has them for one tick.
pub(super) trait Bits {
    /// A number's bit; only for number 0, which nothing calls, it may be any.
    fn bit(&self, number: u8) -> u8;
    fn write(&mut self, number: u8, bit: bool);
}

impl Bits for u32 {
    fn bit(&self, number: u8) -> u8 {
        (self >> number & 1) as u8
    }

    fn write(&mut self, number: u8, bit: bool) {
        *self = *self & !(1 << number) | u32::from(bit) << number;
    }
}

impl Bits for [bool; 16] {
    fn bit(&self, number: u8) -> u8 {
        u8::from(self[usize::from(number.wrapping_sub(1) & 15)])
    }

    fn write(&mut self, number: u8, bit: bool) {
        self[usize::from(number.wrapping_sub(1) & 15)] = bit;
    }
}

/// A fitting state taken apart.
#[derive(Clone, Copy)]
pub(super) struct Stack<B> {
    places: [u8; 32],
    numbers: [u8; 32],
    servers: [u8; 32],
    serving: [u8; 16],
    depth: usize,
    size: usize,
    bits: B,
}

impl Stack<u32> {
    pub(super) fn packed(state: &State) -> Stack<u32> {
        let bits = state.results.iter().rev().fold(0, |bits, bit| bits << 1 | u32::from(*bit)) << 1;
        Stack::of(state, bits)
    }
}

impl<B: Bits> Stack<B> {
    fn of(state: &State, bits: B) -> Stack<B> {
        let (depth, size) = (usize::from(state.depth), usize::from(state.size));
        let State { places, numbers, servers, serving, .. } = *state;
        Stack { places, numbers, servers, serving, depth, size, bits }
    }

    fn state(&self, results: [bool; 16]) -> State {
        let Stack { places, numbers, servers, serving, .. } = *self;
        let (size, depth) = (self.size as u8, self.depth as u8);
        State { size, depth, places, results, serving, numbers, servers }
    }

    /// Opens a scheme at a place; or clears that place.
    fn open(&mut self, at: usize, label: u8, number: u8, server: u8) {
        (self.places[at], self.numbers[at], self.servers[at]) = (label, number, server);
    }

    fn leave_alone(&mut self, label: u8, scheme: u8) {
        (self.places, self.numbers, self.servers) = ([0; 32], [0; 32], [0; 32]);
        self.open(0, label, scheme, scheme);
        self.depth = 1;
    }

    /// The bit is that of the number which the scheme at the top was called by.
    fn write_result(&mut self, top: usize, label: &Label) {
        if label.result != 0 {
            self.bits.write(self.numbers[top], label.result == 2);
        }
    }
}

/// A machine that looks at the rows of one label at a tick or, where it `SCANS`, at all rows in order, to compare times.
pub struct Machine<const SCANS: bool = false> {
    entries: [u8; 17],
    labels: [Label; 256],
    rows: [Row; ROWS],
    count: usize,
    row_count: usize,
    schemes: u8,
    handler: u8,
}

impl<const SCANS: bool> Machine<SCANS> {
    pub fn new(frames: &[Frame], parts: &Parts) -> Machine<SCANS> {
        let mut machine = Machine {
            entries: [0; 17],
            labels: [Label::default(); 256],
            rows: [Row::default(); ROWS],
            count: parts.labels,
            row_count: frames.len() - 1 - parts.schemes - parts.labels,
            schemes: parts.schemes as u8,
            handler: parts.handler,
        };
        let (entries, rest) = frames[1..].split_at(parts.schemes);
        let (labels, rows) = rest.split_at(parts.labels);
        for (place, f) in machine.entries[1..].iter_mut().zip(entries) {
            *place = f[2];
        }
        for (place, f) in machine.labels.iter_mut().zip(labels) {
            let mask = u32::from_be_bytes([f[6], f[7], f[8], f[9]]);
            *place = Label { mask, first: 0, end: 0, kind: f[2], called: f[3], owner: f[4], result: f[5] };
        }
        for (k, f) in rows.iter().enumerate() {
            let label = &mut machine.labels[usize::from(f[1])];
            if label.end == 0 {
                label.first = k as u16;
            }
            label.end = k as u16 + 1;
            let care = u16::from_be_bytes([f[2], f[3]]);
            let values = u16::from_be_bytes([f[4], f[5]]);
            let ones = care.count_ones() as u8;
            machine.rows[k] = Row { care, values, function_bit: f[6], next: f[7], ones, from: f[1] };
        }
        machine
    }

    /// Whether the handler is at the bottom.
    fn handles(&self, bottom: u8) -> bool {
        self.handler != 0 && (bottom == 1 || self.labels[usize::from(bottom)].owner == self.handler)
    }

    /// Refusal 15 is for states that do not fit.
    pub fn fits(&self, state: &State) -> bool {
        let depth = usize::from(state.depth);
        if !(1..=32).contains(&state.size) || depth == 0 || state.depth > state.size {
            return false;
        }
        let (filled, above) = state.places.split_at(depth);
        let bottom = if self.handles(filled[0]) { self.handler } else { 1 };
        if state.servers[0] != bottom {
            return false;
        }
        let (mut number, mut least) = (bottom, 1);
        for (k, place) in filled.iter().enumerate() {
            let server = state.servers[k];
            if usize::from(*place) >= self.count || state.numbers[k] != number {
                return false;
            }
            let label = &self.labels[usize::from(*place)];
            let belongs = label.owner == server || (*place == 1 && server != 1);
            let calls = label.kind == OPERATION_CALL || label.kind == FUNCTION_CALL;
            if !belongs || server < least || server > self.schemes || (k + 1 < depth && !calls) {
                return false;
            }
            (number, least) = (label.called, 2);
        }
        let zeros = &[0; 32][depth..];
        above == zeros
            && &state.numbers[depth..] == zeros
            && &state.servers[depth..] == zeros
            && super::all_serve(&state.serving, self.schemes, self.handler)
    }

    /// Refusals 15 and 22.
    pub fn rebind(&self, state: &mut State, number: usize, scheme: usize) -> Answer {
        let fits = self.fits(state);
        super::bind(fits, self.schemes, self.handler, state, number, scheme)
    }

    /// Refusals 15 to 18.
    pub fn run(&self, state: &mut State, words: &[u16], masks: &mut [u32], codes: &mut [u8]) -> Answer {
        if !self.fits(state) {
            return Err(Refusal::Unfit);
        }
        let count = words.len();
        let (Some(masks), Some(codes)) = (masks.get_mut(..count), codes.get_mut(..count)) else {
            return Err(Refusal::NoRoom);
        };
        let mut stack = Stack::packed(state);
        let answer = self.ticks(&mut stack, words, masks, codes);
        let results = std::array::from_fn(|k| stack.bits >> (k + 1) & 1 == 1);
        *state = stack.state(results);
        answer
    }

    /// Ticks until the words end, or 17 or 18. The buffers are as long as the words.
    fn ticks(&self, stack: &mut Stack<u32>, words: &[u16], masks: &mut [u32], codes: &mut [u8]) -> Answer {
        for (count, ((word, mask), code)) in words.iter().zip(masks).zip(codes).enumerate() {
            match self.tick(stack, *word) {
                Ok(tick) => (*mask, *code) = (tick.mask, tick.code),
                Err(stop) => return Err(stop.after(count)),
            }
        }
        Ok(words.len())
    }

    /// Refusals 15, 17 and 18, or the mask and the code of one tick of a lent state.
    pub fn live_tick(&self, state: &mut State, word: u16) -> Result<Tick, Refusal> {
        if !self.fits(state) {
            return Err(Refusal::Unfit);
        }
        let mut stack = Stack::of(state, state.results);
        let ticked = self.tick(&mut stack, word)?;
        *state = stack.state(stack.bits);
        Ok(ticked)
    }

    /// Refusals 15, 21 and 18, or the number of the row that a tick takes, the conditions that decide and the bit.
    pub fn cause(&self, state: &State, word: u16) -> Result<Cause, Refusal> {
        if !self.fits(state) {
            return Err(Refusal::Unfit);
        }
        let at = |place: usize| &self.labels[usize::from(state.places[place])];
        let top = usize::from(state.depth) - 1;
        let label = match at(top).kind {
            PLAIN => at(top),
            RETURN if top > 0 => at(top - 1),
            _ => return Err(Refusal::Rowless),
        };
        let bit = if label.kind == FUNCTION_CALL { state.results.bit(label.called) } else { 2 };
        let (mut taken, mut conditions) = (None, 0);
        for number in label.first..label.end {
            let row = &self.rows[usize::from(number)];
            let against = (word & row.care) ^ row.values;
            if row.function_bit != 2 && row.function_bit != bit {
                continue;
            }
            // of the bits that differ the lowest; of none, none
            conditions |= against & against.wrapping_neg();
            if against == 0 && taken.is_none_or(|(_, before): (u16, &Row)| before.ones <= row.ones) {
                taken = Some((number, row));
            }
        }
        let (number, row) = taken.ok_or(Refusal::NoRow { ticks: 0 })?;
        Ok(Cause { row: number, mask: row.care | conditions, bit })
    }

    #[inline(always)]
    fn next<B: Bits>(&self, from: u8, bits: &B, word: u16) -> Result<u8, Stop> {
        let label = &self.labels[usize::from(from)];
        let bit = bits.bit(label.called);
        let looked_at =
            if SCANS { 0..self.row_count } else { usize::from(label.first)..usize::from(label.end) };
        let mut taken: Option<&Row> = None;
        for row in &self.rows[looked_at] {
            if SCANS && row.from != from {
                continue;
            }
            let matches = word & row.care == row.values && (row.function_bit == 2 || row.function_bit == bit);
            if matches && taken.is_none_or(|before| before.ones <= row.ones) {
                taken = Some(row);
            }
        }
        taken.map(|row| row.next).ok_or(Stop::NoRow)
    }

    /// A call that finds the stack full: 17 or, for a handler that is not at the bottom, a drop.
    #[cold]
    fn drop_all<B: Bits>(&self, stack: &mut Stack<B>, label: &Label) -> Result<Tick, Stop> {
        if self.handler == 0 || self.handles(stack.places[0]) {
            return Err(Stop::Full);
        }
        stack.write_result(stack.depth - 1, label);
        stack.bits.write(self.handler, false);
        stack.leave_alone(self.entries[usize::from(self.handler)], self.handler);
        Ok(Tick { mask: label.mask, code: 0x60 })
    }

    // in a run the stack then stays in registers
    #[inline(always)]
    pub(super) fn tick<B: Bits>(&self, stack: &mut Stack<B>, word: u16) -> Result<Tick, Stop> {
        let top = stack.depth - 1;
        let label = self.labels[usize::from(stack.places[top])];
        let code = match label.kind {
            PLAIN => {
                stack.places[top] = self.next(stack.places[top], &stack.bits, word)?;
                0x00
            }
            OPERATION_CALL | FUNCTION_CALL => {
                if stack.depth == stack.size {
                    return self.drop_all(stack, &label);
                }
                let server = stack.serving[usize::from(label.called.wrapping_sub(1) & 15)];
                stack.open(top + 1, self.entries[usize::from(server)], label.called, server);
                stack.depth += 1;
                stack.write_result(top, &label);
                stack.bits.write(label.called, false);
                let base = if label.kind == OPERATION_CALL { 0x10 } else { 0x40 };
                return Ok(Tick { mask: label.mask, code: base + label.called });
            }
            HOME => {
                stack.places[top] = self.entries[1];
                0x04
            }
            _ if top == 0 => {
                stack.leave_alone(0, 1);
                0x03
            }
            _ => {
                stack.places[top - 1] = self.next(stack.places[top - 1], &stack.bits, word)?;
                stack.open(top, 0, 0, 0);
                stack.depth = top;
                0x03
            }
        };
        stack.write_result(top, &label);
        Ok(Tick { mask: label.mask, code })
    }
}

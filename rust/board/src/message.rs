//! A call as it goes to the board and comes back: a head of 196 bytes, then the buffers, masks, words, codes, output and
//! input in this order. controller/board/board.c is the other side.

use interface::{told, Answer, State};

/// The calls, as the board numbers them.
#[derive(Clone, Copy, Debug, PartialEq, Eq, PartialOrd, Ord)]
pub enum Call {
    ReadChart,
    WriteChart,
    Translate,
    Places,
    CheckImage,
    Fresh,
    Run,
    DryRun,
    PricedRun,
    Tick,
    Cause,
    ListRows,
    Minimise,
    LittleChart,
    CountFillings,
    Rebind,
    Spin,
    Prepare,
    CheckTable,
    Sum,
    LiveRun,
    LiveTick,
    LiveRebind,
    LiveSpin,
    Meaning,
    /// The count is the version.
    Version,
    /// No call of the library: it takes 4,000 bytes of stack.
    Known,
}

pub const HEAD: usize = 196;
const STATE: usize = 64;
/// The bytes of a state.
pub const STATE_BYTES: usize = 130;

/// One call's buffers and state, before it and after it.
#[derive(Clone, Debug, PartialEq, Eq)]
pub struct Message {
    pub call: Call,
    pub value: u32,
    pub scheme: u32,
    pub taken: u32,
    pub state: State,
    pub masks: Vec<u32>,
    pub words: Vec<u16>,
    pub codes: Vec<u8>,
    pub output: Vec<u8>,
    pub input: Vec<u8>,
}

/// What the board tells of a call besides its buffers.
#[derive(Clone, Copy, Debug)]
pub struct Told {
    pub number: u8,
    pub index: usize,
    pub count: usize,
    /// The bytes of stack that the call took.
    pub stack: usize,
    /// The bytes of the library's code.
    pub code: usize,
    /// What a priced run costs, in cents.
    pub price: u64,
}

impl Told {
    pub fn answer(&self) -> Answer {
        told(self.number, self.index, self.count)
    }
}

impl Message {
    pub fn new(call: Call, input: &[u8]) -> Message {
        Message {
            call,
            value: 0,
            scheme: 0,
            taken: 0,
            state: State::NONE,
            masks: Vec::new(),
            words: Vec::new(),
            codes: Vec::new(),
            output: Vec::new(),
            input: input.to_vec(),
        }
    }

    /// The bytes of the buffers.
    pub fn length(&self) -> usize {
        4 * self.masks.len() + 2 * self.words.len() + self.codes.len() + self.output.len() + self.input.len()
    }

    pub fn bytes(&self) -> Vec<u8> {
        let lengths =
            [self.masks.len(), self.words.len(), self.codes.len(), self.output.len(), self.input.len()];
        let mut bytes = (self.call as u32).to_le_bytes().to_vec();
        for length in lengths {
            bytes.extend(u32::try_from(length).expect("buffers are short").to_le_bytes());
        }
        bytes.extend(self.value.to_le_bytes());
        bytes.extend(self.scheme.to_le_bytes());
        bytes.extend(self.taken.to_le_bytes());
        bytes.resize(STATE, 0);
        bytes.extend(state_bytes(&self.state));
        bytes.resize(HEAD, 0);
        self.masks.iter().for_each(|mask| bytes.extend(mask.to_le_bytes()));
        self.words.iter().for_each(|word| bytes.extend(word.to_le_bytes()));
        bytes.extend(&self.codes);
        bytes.extend(&self.output);
        bytes.extend(&self.input);
        bytes
    }

    /// Takes over what came back. What the call only reads has to be as it was.
    pub fn take(&mut self, head: &[u8], buffers: &[u8]) -> Told {
        let number = |place: usize| u32::from_le_bytes(four(&head[4 * place..]));
        take_state(&mut self.state, &head[STATE..]);
        (self.value, self.taken) = (number(6), number(8));
        let (masks, rest) = buffers.split_at(4 * self.masks.len());
        let (words, rest) = rest.split_at(2 * self.words.len());
        let (codes, rest) = rest.split_at(self.codes.len());
        let (output, input) = rest.split_at(self.output.len());
        for (mask, bytes) in self.masks.iter_mut().zip(masks.chunks_exact(4)) {
            *mask = u32::from_le_bytes(four(bytes));
        }
        self.codes.copy_from_slice(codes);
        self.output.copy_from_slice(output);
        let sent = self.words.iter().flat_map(|word| word.to_le_bytes());
        assert!(sent.eq(words.iter().copied()), "{:?} changed its words", self.call);
        assert!(self.input == input, "{:?} changed its input", self.call);
        Told {
            number: u8::try_from(number(9)).expect("a number is a byte and nothing above it"),
            index: number(10) as usize,
            count: number(11) as usize,
            stack: number(12) as usize,
            code: number(13) as usize,
            price: u64::from(number(15)) << 32 | u64::from(number(14)),
        }
    }
}

fn four(bytes: &[u8]) -> [u8; 4] {
    [bytes[0], bytes[1], bytes[2], bytes[3]]
}

/// A state as C keeps it.
pub fn state_bytes(state: &State) -> Vec<u8> {
    let mut bytes = vec![state.size, state.depth];
    bytes.extend(state.places);
    bytes.extend(state.results.map(u8::from));
    bytes.extend(state.serving);
    bytes.extend(state.numbers);
    bytes.extend(state.servers);
    bytes
}

/// Takes a state over as C kept it.
pub fn take_state(state: &mut State, bytes: &[u8]) {
    (state.size, state.depth) = (bytes[0], bytes[1]);
    state.places.copy_from_slice(&bytes[2..34]);
    for (result, byte) in state.results.iter_mut().zip(&bytes[34..50]) {
        *result = *byte != 0;
    }
    state.serving.copy_from_slice(&bytes[50..66]);
    state.numbers.copy_from_slice(&bytes[66..98]);
    state.servers.copy_from_slice(&bytes[98..STATE_BYTES]);
}

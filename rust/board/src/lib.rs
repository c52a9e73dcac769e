//! The library on an emulated board, as the other libraries are called: each call goes over a pipe to the program of
//! controller/board, which an emulator runs.

mod count;
mod message;

use std::cell::RefCell;
use std::collections::BTreeMap;
use std::io::{Read, Write};
use std::process::{Child, ChildStdin, ChildStdout, Command, Stdio};

pub use count::{may_be_slow, milliseconds, with_commas, Count, Counting};
use interface::{
    handed, Answer, Cause, Fillings, Library, Meaning, PricedReport, Prices, Refusal, State, Tick,
    PRICED_WORDS,
};
pub use message::Call;
use message::{state_bytes, take_state, Message, Told, HEAD, STATE_BYTES};

/// The bytes that the board has for the buffers of a call.
pub const BUFFERS: usize = 47_104;

/// What was noted of the calls that were made.
#[derive(Clone, Debug, Default)]
pub struct Notes {
    pub calls: usize,
    /// The deepest stack of each call, in bytes.
    pub deepest: BTreeMap<Call, usize>,
    /// The bytes of the library's code.
    pub code: usize,
    /// Calls whose buffers the board has no room for, which were not made there.
    pub too_large: usize,
}

/// A board; `instead` answers the calls that it has no room for.
pub struct Board<'a> {
    wires: RefCell<Wires>,
    notes: RefCell<Notes>,
    instead: &'a dyn Library,
}

struct Wires {
    emulator: Child,
    to: Option<ChildStdin>,
    from: ChildStdout,
}

impl Wires {
    fn exchange(&mut self, message: &mut Message) -> std::io::Result<Told> {
        let (mut head, mut buffers) = ([0; HEAD], vec![0; message.length()]);
        self.to.as_mut().expect("it is open until the end").write_all(&message.bytes())?;
        self.from.read_exact(&mut head)?;
        self.from.read_exact(&mut buffers)?;
        Ok(message.take(&head, &buffers))
    }
}

impl Drop for Wires {
    /// The board ends when its input does.
    fn drop(&mut self) {
        self.to.take();
        let ended = self.emulator.wait();
        assert!(std::thread::panicking() || ended.is_ok_and(|status| status.success()), "the board failed");
    }
}

impl<'a> Board<'a> {
    /// Starts the board with a processor, as controller/emulate names it, and more words for the emulator.
    pub fn start(processor: &str, words: &[&str], instead: &'a dyn Library) -> std::io::Result<Board<'a>> {
        let emulate = concat!(env!("CARGO_MANIFEST_DIR"), "/../../controller/emulate");
        let mut command = Command::new(emulate);
        command.args([processor, "board"]).args(words).stdin(Stdio::piped()).stdout(Stdio::piped());
        let mut emulator = command.spawn()?;
        let to = emulator.stdin.take();
        let from = emulator.stdout.take().expect("it is piped");
        let wires = RefCell::new(Wires { emulator, to, from });
        Ok(Board { wires, notes: RefCell::default(), instead })
    }

    pub fn notes(&self) -> Notes {
        self.notes.borrow().clone()
    }

    /// The stack that is measured for a function of the board's own which writes to 4,000 bytes.
    pub fn known_stack(&self) -> usize {
        self.made(&mut Message::new(Call::Known, &[])).expect("it has no buffers").stack
    }

    /// The version of the library that the board has.
    pub fn version(&self) -> usize {
        self.made(&mut Message::new(Call::Version, &[])).expect("it has no buffers").count
    }

    /// Makes the call, if the board has room for it.
    fn made(&self, message: &mut Message) -> Option<Told> {
        let mut notes = self.notes.borrow_mut();
        if message.length() > BUFFERS {
            notes.too_large += 1;
            return None;
        }
        let told = match self.wires.borrow_mut().exchange(message) {
            Ok(told) => told,
            Err(error) => panic!("the board is silent at {:?}: {error}", message.call),
        };
        notes.calls += 1;
        notes.code = told.code;
        let deepest = notes.deepest.entry(message.call).or_insert(0);
        *deepest = told.stack.max(*deepest);
        Some(told)
    }

    /// A call that only reads.
    fn read(&self, call: Call, input: &[u8]) -> Option<Answer> {
        Some(self.made(&mut Message::new(call, input))?.answer())
    }

    /// A call that reads one list of bytes and writes another.
    fn written(&self, call: Call, input: &[u8], out: &mut [u8]) -> Option<Answer> {
        self.filled(Message::new(call, input), out)
    }

    /// A call that writes a list of bytes.
    fn filled(&self, mut message: Message, out: &mut [u8]) -> Option<Answer> {
        message.output = out.to_vec();
        let told = self.made(&mut message)?;
        out.copy_from_slice(&message.output);
        Some(told.answer())
    }

    fn ran(
        &self,
        call: Call,
        input: &[u8],
        state: &mut State,
        words: &[u16],
        masks: &mut [u32],
        codes: &mut [u8],
    ) -> Option<Answer> {
        let mut message = Message::new(call, input);
        (message.state, message.words) = (*state, words.to_vec());
        let told = self.ran_with(&mut message, masks, codes)?;
        *state = message.state;
        Some(told.answer())
    }

    /// A run of a message that has all but its buffers.
    fn ran_with(&self, message: &mut Message, masks: &mut [u32], codes: &mut [u8]) -> Option<Told> {
        (message.masks, message.codes) = (masks.to_vec(), codes.to_vec());
        let told = self.made(message)?;
        masks.copy_from_slice(&message.masks);
        codes.copy_from_slice(&message.codes);
        Some(told)
    }

    fn rebound(
        &self,
        call: Call,
        input: &[u8],
        state: &mut State,
        number: usize,
        scheme: usize,
    ) -> Option<Answer> {
        let mut message = Message::new(call, input);
        message.state = *state;
        (message.value, message.scheme) = (as_wide_as_there(number), as_wide_as_there(scheme));
        let told = self.made(&mut message)?;
        *state = message.state;
        Some(told.answer())
    }

    /// The states go to the board and come back as its output; the value is the spindle's number.
    fn spun(
        &self,
        call: Call,
        states: &mut [State],
        taken: &mut usize,
        spindle: usize,
        input: &[u8],
        word: u16,
    ) -> Option<Result<Tick, Refusal>> {
        let mut message = Message::new(call, input);
        let recorded = as_wide_as_there(*taken);
        (message.value, message.taken) = (as_wide_as_there(spindle), recorded);
        message.words = vec![word];
        (message.masks, message.codes) = (vec![Tick::BEFORE.mask], vec![Tick::BEFORE.code]);
        message.output = states.iter().flat_map(state_bytes).collect();
        let told = self.made(&mut message)?;
        for (state, bytes) in states.iter_mut().zip(message.output.chunks_exact(STATE_BYTES)) {
            take_state(state, bytes);
        }
        // a record that was too wide to be handed over whole stays as it is where it comes back
        if message.taken != recorded {
            *taken = message.taken as usize;
        }
        let tick = Tick { mask: message.masks[0], code: message.codes[0] };
        Some(handed(told.answer(), 1, tick, Tick::BEFORE))
    }

    fn ticked(
        &self,
        call: Call,
        input: &[u8],
        state: &mut State,
        word: u16,
    ) -> Option<Result<Tick, Refusal>> {
        let (mut masks, mut codes) = ([Tick::BEFORE.mask], [Tick::BEFORE.code]);
        let answer = self.ran(call, input, state, &[word], &mut masks, &mut codes)?;
        Some(handed(answer, 1, Tick { mask: masks[0], code: codes[0] }, Tick::BEFORE))
    }
}

/// A number that has no room in a length of the board goes there as the largest that has.
fn as_wide_as_there(number: usize) -> u32 {
    u32::try_from(number).unwrap_or(u32::MAX)
}

impl Library for Board<'_> {
    fn read_chart(&self, text: &[u8], out: &mut [u8]) -> Answer {
        self.written(Call::ReadChart, text, out).unwrap_or_else(|| self.instead.read_chart(text, out))
    }

    fn write_chart(&self, records: &[u8], out: &mut [u8]) -> Answer {
        self.written(Call::WriteChart, records, out).unwrap_or_else(|| self.instead.write_chart(records, out))
    }

    fn translate(&self, text: &[u8], out: &mut [u8]) -> Answer {
        self.written(Call::Translate, text, out).unwrap_or_else(|| self.instead.translate(text, out))
    }

    fn places(&self, text: &[u8]) -> Answer {
        self.read(Call::Places, text).unwrap_or_else(|| self.instead.places(text))
    }

    fn check_image(&self, text: &[u8]) -> Answer {
        self.read(Call::CheckImage, text).unwrap_or_else(|| self.instead.check_image(text))
    }

    /// The board's numbers have 32 bits: a larger size is handed over as the largest of them, which is refused too.
    fn fresh(&self, size: usize) -> Result<State, Refusal> {
        let mut message = Message::new(Call::Fresh, &[]);
        message.value = as_wide_as_there(size);
        message.state = State {
            size: 0xFF,
            depth: 0xFF,
            places: [0xFF; 32],
            results: [true; 16],
            serving: [0xFF; 16],
            numbers: [0xFF; 32],
            servers: [0xFF; 32],
        };
        let told = self.made(&mut message).expect("it has no buffers");
        handed(told.answer(), 0, message.state, State::NONE)
    }

    fn run(
        &self,
        image: &[u8],
        state: &mut State,
        words: &[u16],
        masks: &mut [u32],
        codes: &mut [u8],
    ) -> Answer {
        self.ran(Call::Run, image, state, words, masks, codes)
            .unwrap_or_else(|| self.instead.run(image, state, words, masks, codes))
    }

    /// The text goes to the board as the input, the size as the value, and the image comes back as its output.
    fn dry_run(
        &self,
        text: &[u8],
        size: usize,
        image: &mut [u8],
        words: &[u16],
        masks: &mut [u32],
        codes: &mut [u8],
    ) -> Answer {
        let mut message = Message::new(Call::DryRun, text);
        message.value = as_wide_as_there(size);
        (message.words, message.output) = (words.to_vec(), image.to_vec());
        let Some(told) = self.ran_with(&mut message, masks, codes) else {
            return self.instead.dry_run(text, size, image, words, masks, codes);
        };
        image.copy_from_slice(&message.output);
        told.answer()
    }

    /// The prices go before the words. The board's flash has one word more than a priced run takes, all 0, so that 27 is tried there too.
    fn priced_run(
        &self,
        image: &[u8],
        state: &mut State,
        prices: &Prices,
        words: &[u16],
        masks: &mut [u32],
        codes: &mut [u8],
    ) -> PricedReport {
        let mut message = Message::new(Call::PricedRun, image);
        let in_flash = words.len() == PRICED_WORDS + 1 && words.iter().all(|word| *word == 0);
        message.value = if in_flash { words.len() as u32 } else { 0 };
        message.words = [prices.as_slice(), if in_flash { &[] } else { words }].concat();
        message.state = *state;
        let Some(told) = self.ran_with(&mut message, masks, codes) else {
            return self.instead.priced_run(image, state, prices, words, masks, codes);
        };
        *state = message.state;
        PricedReport { answer: told.answer(), price: told.price }
    }

    fn tick(&self, image: &[u8], state: &mut State, word: u16) -> Result<Tick, Refusal> {
        self.ticked(Call::Tick, image, state, word).unwrap_or_else(|| self.instead.tick(image, state, word))
    }

    fn spin(
        &self,
        states: &mut [State],
        taken: &mut usize,
        spindle: usize,
        image: &[u8],
        word: u16,
    ) -> Result<Tick, Refusal> {
        self.spun(Call::Spin, states, taken, spindle, image, word)
            .unwrap_or_else(|| self.instead.spin(states, taken, spindle, image, word))
    }

    fn rebind(&self, image: &[u8], state: &mut State, number: usize, scheme: usize) -> Answer {
        self.rebound(Call::Rebind, image, state, number, scheme)
            .unwrap_or_else(|| self.instead.rebind(image, state, number, scheme))
    }

    /// Row and mask come back as the message's masks, the bit as its code.
    fn cause(&self, image: &[u8], state: &State, word: u16) -> Result<Cause, Refusal> {
        let mut message = Message::new(Call::Cause, image);
        (message.state, message.words) = (*state, vec![word]);
        (message.masks, message.codes) = (vec![u32::MAX; 2], vec![u8::MAX]);
        let Some(told) = self.made(&mut message) else {
            return self.instead.cause(image, state, word);
        };
        assert_eq!(message.state, *state, "a cause changed the state");
        let number = |at: usize| u16::try_from(message.masks[at]).expect("it was written");
        let found = Cause { row: number(0), mask: number(1), bit: message.codes[0] };
        handed(told.answer(), 0, found, Cause { row: 0, mask: 0, bit: 0 })
    }

    /// Both lists go to the board and come back as its output, the firsts before the counts; the value says how many are firsts.
    fn list_rows(&self, image: &[u8], firsts: &mut [u16], counts: &mut [u16]) -> Answer {
        let mut message = Message::new(Call::ListRows, image);
        message.value = u32::try_from(firsts.len()).expect("buffers are short");
        message.output = firsts.iter().chain(&*counts).flat_map(|number| number.to_le_bytes()).collect();
        let Some(told) = self.made(&mut message) else {
            return self.instead.list_rows(image, firsts, counts);
        };
        let numbers = message.output.chunks_exact(2).map(|bytes| u16::from_le_bytes([bytes[0], bytes[1]]));
        firsts.iter_mut().chain(counts).zip(numbers).for_each(|(place, number)| *place = number);
        told.answer()
    }

    fn minimise(&self, image: &[u8], out: &mut [u8]) -> Answer {
        self.written(Call::Minimise, image, out).unwrap_or_else(|| self.instead.minimise(image, out))
    }

    /// The number goes to the board as the value, the frame count in the scheme's place.
    fn little_chart(&self, frames: usize, number: usize, text: &mut [u8]) -> Answer {
        let mut message = Message::new(Call::LittleChart, &[]);
        (message.scheme, message.value) = (as_wide_as_there(frames), as_wide_as_there(number));
        self.filled(message, text).unwrap_or_else(|| self.instead.little_chart(frames, number, text))
    }

    /// The size goes to the board as the value, ticks and conditions in the places of the scheme and of the places taken; the counts come
    /// back as its masks.
    fn count_fillings(
        &self,
        image: &[u8],
        size: usize,
        ticks: usize,
        conditions: usize,
    ) -> Result<Fillings, Refusal> {
        let mut message = Message::new(Call::CountFillings, image);
        (message.value, message.masks) = (as_wide_as_there(size), vec![u32::MAX; 3]);
        (message.scheme, message.taken) = (as_wide_as_there(ticks), as_wide_as_there(conditions));
        let Some(told) = self.made(&mut message) else {
            return self.instead.count_fillings(image, size, ticks, conditions);
        };
        let [ended, full, unmatched] = [0, 1, 2].map(|at: usize| message.masks[at]);
        handed(told.answer(), 0, Fillings { ended, full, unmatched }, Fillings::default())
    }

    fn prepare(&self, image: &[u8], table: &mut [u8]) -> Answer {
        self.written(Call::Prepare, image, table).unwrap_or_else(|| self.instead.prepare(image, table))
    }

    fn check_table(&self, table: &[u8]) -> Answer {
        self.read(Call::CheckTable, table).unwrap_or_else(|| self.instead.check_table(table))
    }

    /// The sum goes there and comes back as the value.
    fn sum(&self, sum: u32, bytes: &[u8]) -> u32 {
        let mut message = Message::new(Call::Sum, bytes);
        message.value = sum;
        match self.made(&mut message) {
            Some(_) => message.value,
            None => self.instead.sum(sum, bytes),
        }
    }

    fn live_run(
        &self,
        table: &[u8],
        state: &mut State,
        words: &[u16],
        masks: &mut [u32],
        codes: &mut [u8],
    ) -> Answer {
        self.ran(Call::LiveRun, table, state, words, masks, codes)
            .unwrap_or_else(|| self.instead.live_run(table, state, words, masks, codes))
    }

    fn live_tick(&self, table: &[u8], state: &mut State, word: u16) -> Result<Tick, Refusal> {
        self.ticked(Call::LiveTick, table, state, word)
            .unwrap_or_else(|| self.instead.live_tick(table, state, word))
    }

    fn live_spin(
        &self,
        states: &mut [State],
        taken: &mut usize,
        spindle: usize,
        table: &[u8],
        word: u16,
    ) -> Result<Tick, Refusal> {
        self.spun(Call::LiveSpin, states, taken, spindle, table, word)
            .unwrap_or_else(|| self.instead.live_spin(states, taken, spindle, table, word))
    }

    fn live_rebind(&self, table: &[u8], state: &mut State, number: usize, scheme: usize) -> Answer {
        self.rebound(Call::LiveRebind, table, state, number, scheme)
            .unwrap_or_else(|| self.instead.live_rebind(table, state, number, scheme))
    }

    fn meaning(&self, code: u8) -> Meaning {
        let mut message = Message::new(Call::Meaning, &[]);
        message.value = u32::from(code);
        message.codes = vec![0xFF];
        let told = self.made(&mut message).expect("one byte has room");
        match (told.number, message.codes[0]) {
            (0, 0) => Meaning::Plain,
            (1, scheme) => Meaning::OperationCall(scheme),
            (2, scheme) => Meaning::FunctionCall(scheme),
            (3, 0) => Meaning::Return,
            (4, 0) => Meaning::Home,
            (5, 0) => Meaning::Drop,
            (255, 0) => Meaning::Unknown,
            other => panic!("code {code:02X} stands for {other:?}"),
        }
    }
}

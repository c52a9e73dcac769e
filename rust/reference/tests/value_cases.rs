//! What the program `value_cases` is expected to print, the calls by value, behind a reference and over a list of states, is what the
//! reference answers to the same calls.

use std::fmt::Write;

use interface::{Answer, Library, Refusal, State, Tick, OPERATIONS};
use reference::{frames, Reference};

const WORDS: [u16; 4] = [0, 0, 1, 0];

struct Printed(String);

impl Printed {
    /// The frame of an answer, as the case programs print it.
    fn answer(&mut self, entry: u8, answer: Answer, bytes: usize) {
        let (number, index, count) = match answer {
            Ok(count) => (0, 0, count),
            Err(refusal) => (refusal.number(), refusal.index(), refusal.ticks()),
        };
        let [index, count, bytes] = [index, count, bytes].map(|value| (value as u16).to_be_bytes());
        let ten = [entry, number, index[0], index[1], count[0], count[1], bytes[0], bytes[1], 0, 0];
        self.0.push_str(&String::from_utf8_lossy(&frames::line(&ten)));
    }

    fn byte(&mut self, byte: u8) {
        writeln!(self.0, "{byte:02X}").expect("a text takes all");
    }

    fn tick(&mut self, entry: u8, ticked: Result<Tick, Refusal>, bytes: usize) {
        self.answer(entry, ticked.map(|_| 1), bytes);
        if let Ok(Tick { mask, code }) = ticked {
            self.byte(mask as u8);
            self.byte(code);
        }
    }

    fn ticks(&mut self, masks: [u32; 4], codes: [u8; 4]) {
        for (mask, code) in masks.into_iter().zip(codes) {
            self.byte(mask as u8);
            self.byte(code);
        }
    }
}

fn fresh(size: usize) -> State {
    Reference.fresh(size).expect("a good size")
}

/// One chart's image and table, and what is printed of the calls on them.
struct Case<'a> {
    image: Vec<u8>,
    table: Vec<u8>,
    printed: &'a mut Printed,
}

impl Case<'_> {
    fn of<'a>(chart: &str, printed: &'a mut Printed) -> Case<'a> {
        let (mut image, mut table) = (vec![0; 276], vec![0; 120]);
        printed.answer(0, Reference.translate(chart.as_bytes(), &mut image), 0);
        printed.answer(0, Reference.prepare(&image, &mut table), 0);
        Case { image, table, printed }
    }

    fn tick(&mut self, entry: u8, state: &mut State, word: u16) {
        let ticked = match entry {
            0x12 => Reference.live_tick(&self.table, state, word),
            _ => Reference.tick(&self.image, state, word),
        };
        self.printed.tick(entry, ticked, 0);
    }

    fn ticks(&mut self) {
        let mut states = [fresh(3); 3];
        for word in WORDS {
            for (entry, state) in (0x10..).zip(&mut states) {
                self.tick(entry, state, word);
            }
        }
        let mut short = fresh(1);
        for _ in 0..2 {
            self.tick(0x10, &mut short, 0);
            for entry in [0x11, 0x12] {
                self.tick(entry, &mut short.clone(), 0);
            }
        }
    }

    fn live_run(&mut self, table: &[u8], mut state: State, room: usize) -> State {
        let (mut masks, mut codes) = ([119; 4], [170; 4]);
        let answer = Reference.live_run(table, &mut state, &WORDS, &mut masks, &mut codes[..room]);
        self.printed.answer(0x13, answer, 0);
        self.printed.ticks(masks, codes);
        state
    }

    fn live_runs(&mut self) {
        let table = self.table.clone();
        let left = self.live_run(&table, fresh(3), 4);
        let left = self.live_run(&table, left, 4);
        self.live_run(&table, left, 3);
        self.live_run(&table, fresh(1), 4);
        self.live_run(&[0; 100], fresh(3), 4);
    }

    fn priced_run(&mut self, size: usize) {
        let mut prices = [0; OPERATIONS];
        prices[..2].copy_from_slice(&[100, 25]);
        let (mut masks, mut codes) = ([119; 4], [170; 4]);
        let state = &mut fresh(size);
        let report = Reference.priced_run(&self.image, state, &prices, &WORDS, &mut masks, &mut codes);
        self.printed.answer(0x16, report.answer, report.price as usize);
        self.printed.ticks(masks, codes);
    }

    fn causes(&mut self) {
        let mut state = fresh(3);
        for word in WORDS {
            let told = Reference.cause(&self.image, &state, word);
            self.printed.answer(0x17, told.map(|_| 0), told.map_or(0, |cause| cause.row.into()));
            if let Ok(cause) = told {
                self.printed.byte(cause.mask as u8);
                self.printed.byte(cause.bit);
            }
            let _ = Reference.tick(&self.image, &mut state, word);
        }
    }

    fn spin(&mut self, entry: u8, states: &mut [State], taken: &mut usize, spindle: usize) {
        let ticked = match entry {
            0x18 => Reference.spin(states, taken, spindle, &self.image, 0),
            _ => Reference.live_spin(states, taken, spindle, &self.table, 0),
        };
        self.printed.tick(entry, ticked, *taken);
    }

    fn spindles(&mut self) {
        let (mut states, mut taken) = ([fresh(3); 4], 4);
        for turn in 0..8 {
            let spindle = turn % 4;
            self.spin(if spindle == 2 { 0x19 } else { 0x18 }, &mut states, &mut taken, spindle);
        }
        self.spin(0x18, &mut states, &mut taken, 4);
        self.spin(0x19, &mut states, &mut 65, 0);
    }

    fn rebind(&mut self, state: &mut State, number: usize, scheme: usize) {
        let answer = Reference.rebind(&self.image, state, number, scheme);
        self.printed.answer(0x14, answer, 0);
    }

    fn live_rebind(&mut self, table: &[u8], state: &mut State, number: usize, scheme: usize) {
        let answer = Reference.live_rebind(table, state, number, scheme);
        self.printed.answer(0x15, answer, 0);
    }

    fn rebindings(&mut self) {
        let table = self.table.clone();
        let (mut state, mut swapped, mut live) = (fresh(2), fresh(2), fresh(2));
        self.rebind(&mut swapped, 2, 3);
        self.live_rebind(&table, &mut live, 2, 3);
        for _ in 0..4 {
            self.tick(0x11, &mut state, 0);
        }
        for _ in 0..4 {
            self.tick(0x11, &mut swapped, 0);
            self.tick(0x10, &mut live, 0);
        }
        self.rebind(&mut swapped, 1, 2);
        self.live_rebind(&table, &mut live, 2, 4);
        self.live_rebind(&[0; 9], &mut live, 2, 3);
    }
}

/// The chart of the bench sheet.
const BENCH: &str =
    "00010001000000000000FE\n02010202000000000001F8\n01010000000000000000FE\n00020004000000000000FA\n\
    03020005060000000000F0\n01020000000000000000FD\n02020205000000000002F3\n";

/// One with a scheme to swap.
const SWAPPED: &str = "00010001000000000000FE\n02010202000000000001F8\n01010000000000000000FE\n00020004000000000000FA\n\
    02020005000000000002F5\n01020000000000000000FD\n00030007000000000000F6\n02030008000000000004EF\n01030000000000000000FC\n";

#[test]
fn value_cases_expects_what_the_reference_answers() {
    let mut printed = Printed(String::new());
    let mut case = Case::of(BENCH, &mut printed);
    case.ticks();
    case.live_runs();
    case.priced_run(3);
    case.priced_run(1);
    case.causes();
    case.spindles();
    Case::of(SWAPPED, &mut printed).rebindings();
    assert_eq!(include_str!("../../../crates/value_cases/stdout"), printed.0);
}

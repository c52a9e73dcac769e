//! Libraries with one fault each, the slips and idlers of paper 01 among them: the comparison must find every one.

#[macro_use]
mod common;

use std::cell::RefCell;

use common::is_found;
use comparison::compare::compare;
use reference::entry::{self, image_from_text};
use reference::frames::text_of;
use reference::image::{Image, Label, FUNCTION_CALL, HOME, RETURN};
use reference::machine::{self, Advanced};
use reference::{as_the_reference, told, Answer, Library, Reference, Refusal, State, Tick};

faults! {
    TurnsAllChartsBack,
    OneImageForAll,
    FullBeforeTheFirstTick,
    AlwaysHome,
    PlainAfterTheFirstCall,
    ChangesNothing,
    CountsOneMore,
    WritesPastTheCount,
    ForgetsTheStateOnShortBuffers,
    JoinsRows,
    CallsAgainOnReturn,
    ResultBitOfTheCall,
    WordOfTheCall,
    ReturnsFromSchemeOne,
    FullOnePlaceEarly,
    WritesTheResultOfAFullCall,
    KeepsTheCalledBit,
    ClearsTheCallersBit,
    ClearsBeforeTheResult,
    ClearsAtAFullStack,
    KeepsDroppedPlaces,
    ReadsIntoShortBuffers,
    NamesTheFrameAfter,
    WritesSmallDigits,
    AcceptsAllImages,
    FreshWith33Places,
}

/// The reference with one fault. `calls` keeps the word and the result bit of each open call of the state that was
/// last handed back; where a fault needs them, runs of other states are as they should be.
struct Faulty {
    fault: Fault,
    calls: RefCell<[(u16, bool); 32]>,
    last: RefCell<State>,
}

impl Faulty {
    fn new(fault: Fault) -> Faulty {
        Faulty { fault, calls: RefCell::new([(0, false); 32]), last: RefCell::new(State::NONE) }
    }

    /// Whether the fault cannot show in a run of this state.
    fn forgotten(&self, state: &State) -> bool {
        matches!(self.fault, ResultBitOfTheCall | WordOfTheCall) && *self.last.borrow() != *state
    }

    fn tick_of(&self, image: &Image, state: &State, word: u16) -> Result<Advanced, Refusal> {
        let top = usize::from(state.depth) - 1;
        let label = image.labels[usize::from(state.places[top])];
        if label.calls() {
            let bit = state.results[usize::from(label.called) - 1];
            self.calls.borrow_mut()[top] = (word, bit);
        }
        if label.kind == RETURN && top > 0 {
            return self.return_of(image, state, word);
        }
        let full = label.calls() && state.depth + 1 == state.size;
        if self.fault == FullOnePlaceEarly && full {
            return Err(Refusal::Full { ticks: 0 });
        }
        let mut advanced = machine::tick(image, state, word)?;
        if self.fault == ReturnsFromSchemeOne && label.kind == HOME {
            advanced.code = 0x03;
        }
        if label.calls() && advanced.code != 0x60 {
            self.clear(&label, state, &mut advanced.state);
        }
        Ok(advanced)
    }

    /// What the faults make of the result bits after a finished call.
    fn clear(&self, label: &Label, before: &State, after: &mut State) {
        let top = usize::from(before.depth) - 1;
        let (number, called) = (usize::from(before.numbers[top]) - 1, usize::from(label.called) - 1);
        let own = label.result != 0 && number == called;
        let kept = if own { label.result == 2 } else { before.results[called] };
        match self.fault {
            KeepsTheCalledBit => after.results[called] = kept,
            ClearsTheCallersBit => (after.results[called], after.results[number]) = (kept, false),
            ClearsBeforeTheResult if own => after.results[called] = label.result == 2,
            _ => {}
        }
    }

    fn return_of(&self, image: &Image, state: &State, word: u16) -> Result<Advanced, Refusal> {
        let top = usize::from(state.depth) - 1;
        let beneath = image.labels[usize::from(state.places[top - 1])];
        let (call_word, call_bit) = self.calls.borrow()[top - 1];
        let result = usize::from(beneath.called) - 1;
        let mut before = *state;
        if self.fault == ResultBitOfTheCall && beneath.kind == FUNCTION_CALL {
            before.results[result] = call_bit;
        }
        let word = if self.fault == WordOfTheCall { call_word } else { word };
        let mut advanced = machine::tick(image, &before, word)?;
        advanced.state.results = state.results;
        match self.fault {
            CallsAgainOnReturn => advanced.state.places[top - 1] = state.places[top - 1],
            KeepsDroppedPlaces => advanced.state.places[top] = 1,
            _ => {}
        }
        Ok(advanced)
    }

    /// The ticks of a run that nothing up to 16 turns back.
    fn ticks(
        &self,
        image: &Image,
        state: &mut State,
        words: &[u16],
        masks: &mut [u32],
        codes: &mut [u8],
    ) -> Answer {
        for (count, word) in words.iter().enumerate() {
            match self.tick_of(image, state, *word) {
                Ok(advanced) => {
                    masks[count] = advanced.mask;
                    codes[count] = advanced.code;
                    *state = advanced.state;
                }
                Err(refusal) => {
                    if self.fault == WritesTheResultOfAFullCall {
                        state.results[0] = !state.results[0];
                    }
                    if self.fault == ClearsAtAFullStack && matches!(refusal, Refusal::Full { .. }) {
                        let top = state.places[usize::from(state.depth) - 1];
                        let called = image.labels[usize::from(top)].called;
                        state.results[usize::from(called) - 1] = false;
                    }
                    return Err(refusal.after(count));
                }
            }
        }
        Ok(words.len())
    }

    /// What the idlers make of a run's outcome.
    fn idle(
        &self,
        start: State,
        state: &mut State,
        answer: Answer,
        masks: &mut [u32],
        codes: &mut [u8],
    ) -> Answer {
        let count = answer.unwrap_or_else(Refusal::ticks);
        match self.fault {
            FullBeforeTheFirstTick => {
                *state = start;
                return Err(Refusal::Full { ticks: 0 });
            }
            AlwaysHome => codes[..count].fill(0x04),
            PlainAfterTheFirstCall => {
                let call = codes[..count].iter().position(|c| *c >= 0x10);
                codes[call.map_or(count, |k| k + 1)..count].fill(0);
            }
            ChangesNothing => *state = start,
            CountsOneMore => return Ok(count + 1),
            WritesPastTheCount if count < masks.len() => masks[count] = 0,
            _ => {}
        }
        answer
    }
}

/// Rows of one label that differ in one tested value and lead to one label, made one.
fn joined(image: &mut Image) {
    let mut at = 1;
    while at < image.rows.len() {
        let (a, b) = (image.rows[at - 1], image.rows[at]);
        let apart = a.values ^ b.values;
        let alike = (a.from, a.care, a.next, a.function_bit) == (b.from, b.care, b.next, b.function_bit);
        if alike && apart.count_ones() == 1 {
            image.rows[at - 1].care &= !apart;
            image.rows[at - 1].values &= !apart;
            image.rows.remove(at);
        } else {
            at += 1;
        }
    }
}

impl Library for Faulty {
    as_the_reference!(
        places,
        dry_run,
        priced_run,
        cause,
        list_rows,
        minimise,
        count_fillings,
        prepare,
        check_table,
        sum,
        live_run
    );
    as_the_reference!(rebindings, spins, meaning, little_chart);

    fn read_chart(&self, text: &[u8], out: &mut [u8]) -> Answer {
        let answer = entry::read_chart(text, out);
        match (self.fault, answer) {
            (ReadsIntoShortBuffers, Err(Refusal::NoRoom)) => {
                out.iter_mut().for_each(|byte| *byte = 0);
                answer
            }
            (NamesTheFrameAfter, Err(refusal)) => {
                told(refusal.number(), refusal.frame().map_or(0, |frame| frame + 1), 0)
            }
            _ => answer,
        }
    }

    fn write_chart(&self, records: &[u8], out: &mut [u8]) -> Answer {
        let answer = entry::write_chart(records, out);
        if self.fault == WritesSmallDigits {
            out[..answer.unwrap_or(0)].make_ascii_lowercase();
        }
        answer
    }

    fn translate(&self, text: &[u8], out: &mut [u8]) -> Answer {
        let Ok(image) = entry::translated(text) else {
            return entry::translate(text, out);
        };
        let mut image = image_from_text(&image).unwrap();
        match self.fault {
            TurnsAllChartsBack => return Err(Refusal::ManyRows),
            OneImageForAll => {
                let begin_to_end = b"00010001000000000000FE\n01010000000000000000FE\n";
                image = image_from_text(&entry::translated(begin_to_end).unwrap()).unwrap();
            }
            JoinsRows => joined(&mut image),
            _ => {}
        }
        let text = text_of(&image.frames());
        if out.len() < text.len() {
            return Err(Refusal::NoRoom);
        }
        out[..text.len()].copy_from_slice(&text);
        Ok(text.len())
    }

    fn check_image(&self, text: &[u8]) -> Answer {
        if self.fault == AcceptsAllImages {
            return Ok(0);
        }
        entry::check_image(text)
    }

    fn fresh(&self, size: usize) -> Result<State, Refusal> {
        if self.fault == FreshWith33Places && size == 33 {
            return Ok(State { size: 33, ..entry::fresh(32)? });
        }
        let made = entry::fresh(size);
        *self.last.borrow_mut() = made.unwrap_or(State::NONE);
        made
    }

    fn run(
        &self,
        text: &[u8],
        state: &mut State,
        words: &[u16],
        masks: &mut [u32],
        codes: &mut [u8],
    ) -> Answer {
        let start = *state;
        let right = entry::run(text, &mut start.clone(), words, &mut masks.to_vec(), &mut codes.to_vec());
        match right {
            Ok(_) | Err(Refusal::Full { .. } | Refusal::NoRow { .. }) => {}
            Err(_) => {
                if self.fault == ForgetsTheStateOnShortBuffers && right == Err(Refusal::NoRoom) {
                    *state = State::NONE;
                }
                return right;
            }
        }
        if self.forgotten(state) {
            return entry::run(text, state, words, masks, codes);
        }
        let image = image_from_text(text).unwrap();
        let answer = self.ticks(&image, state, words, masks, codes);
        let answer = self.idle(start, state, answer, masks, codes);
        *self.last.borrow_mut() = *state;
        answer
    }

    fn tick(&self, image: &[u8], state: &mut State, word: u16) -> Result<Tick, Refusal> {
        Reference.tick(image, state, word)
    }
}

#[test]
fn every_fault_is_found() {
    for &fault in FAULTS {
        let library = Faulty::new(fault);
        is_found(format_args!("{fault:?}"), &library, 5_000);
    }
}

#[test]
fn a_difference_is_found_again_by_its_seed() {
    let library = Faulty::new(JoinsRows);
    let first = compare(&library, 5, 5_000).unwrap_err();
    let again = compare(&library, first.seed, 1).unwrap_err();
    assert_eq!(first.to_string(), again.to_string());
}

//! The typed calls behind the trait, compared with the reference as the calls of C are. What a value does not take, as a table that was
//! damaged or four states with another record of places, goes to the calls of C.

use comparison::compare::compare;
use fairleadow::{Buffer, Chart, Image, Spindles, State, Table, STATE_BYTES};
use proved::{Answer, Cause, Fillings, Library, Meaning, PricedReport, Prices, Proved, Refusal, Tick};

const SEED: u64 = 3;
const CASES: u64 = 100_000;

struct Typed;

/// What a value holds, in a lent buffer.
fn copied<const N: usize>(held: Buffer<N>, out: &mut [u8]) -> Answer {
    out.get_mut(..held.len()).ok_or(Refusal::NoRoom)?.copy_from_slice(&held);
    Ok(held.len())
}

fn emitted(fairleadow::Tick { mask, code }: fairleadow::Tick) -> Tick {
    Tick { mask, code }
}

fn typed(state: &proved::State) -> State {
    let results = state.results.map(u8::from);
    let lists = [&state.places[..], &results, &state.serving, &state.numbers, &state.servers].concat();
    let bytes: Vec<u8> = [state.size, state.depth].into_iter().chain(lists).collect();
    State::from_bytes(<[u8; STATE_BYTES]>::try_from(bytes).expect("its bytes"))
}

fn plain(state: &State) -> proved::State {
    let bytes = state.as_bytes();
    proved::State {
        size: bytes[0],
        depth: bytes[1],
        places: bytes[2..34].try_into().expect("32 bytes"),
        results: std::array::from_fn(|at| state.result(at + 1) == Some(true)),
        serving: std::array::from_fn(|at| state.serving(at + 1).expect("a number")),
        numbers: bytes[66..98].try_into().expect("32 bytes"),
        servers: bytes[98..].try_into().expect("32 bytes"),
    }
}

/// What a call on a lent state answers; the state is written back.
fn on<T>(state: &mut proved::State, call: impl FnOnce(&mut State) -> T) -> T {
    let mut kept = typed(state);
    let answered = call(&mut kept);
    *state = plain(&kept);
    answered
}

/// The table of these bytes, where they are exactly one.
fn table(bytes: &[u8]) -> Option<Table<&[u8]>> {
    Table::parse(bytes).ok()
}

/// The spindles of these states, where they are four and have so many places taken.
fn spindles(states: &[proved::State], taken: usize) -> Option<Spindles> {
    let states: Vec<State> = states.iter().map(typed).collect();
    Some(Spindles::with(states.try_into().ok()?)).filter(|spindles| spindles.taken() == taken)
}

fn spun(
    states: &mut [proved::State],
    taken: &mut usize,
    mut spindles: Spindles,
    spin: impl FnOnce(&mut Spindles) -> Result<fairleadow::Tick, Refusal>,
) -> Result<Tick, Refusal> {
    let tick = spin(&mut spindles);
    for (at, state) in states.iter_mut().enumerate() {
        *state = plain(spindles.state(at).expect("a spindle"));
    }
    *taken = spindles.taken();
    tick.map(emitted)
}

impl Library for Typed {
    fn read_chart(&self, text: &[u8], out: &mut [u8]) -> Answer {
        Ok(copied(Chart::parse(text)?.records()?, out)? / fairleadow::RECORD)
    }

    fn write_chart(&self, records: &[u8], out: &mut [u8]) -> Answer {
        let chart = Chart::of_records(records)?;
        out.get_mut(..chart.text().len()).ok_or(Refusal::NoRoom)?.copy_from_slice(chart.text());
        Ok(chart.text().len())
    }

    fn translate(&self, text: &[u8], out: &mut [u8]) -> Answer {
        Ok(Image::of_in(&Chart::parse(text)?, out)?.text().len())
    }

    fn places(&self, text: &[u8]) -> Answer {
        Chart::parse(text)?.places()
    }

    fn check_image(&self, text: &[u8]) -> Answer {
        Image::parse(text).map(|_| 0)
    }

    fn fresh(&self, size: usize) -> Result<proved::State, Refusal> {
        State::fresh(size).map(|state| plain(&state))
    }

    fn run(
        &self,
        image: &[u8],
        state: &mut proved::State,
        words: &[u16],
        masks: &mut [u32],
        codes: &mut [u8],
    ) -> Answer {
        on(state, |state| Image::parse(image)?.run_in(state, words, masks, codes))
    }

    fn dry_run(
        &self,
        text: &[u8],
        size: usize,
        image: &mut [u8],
        words: &[u16],
        masks: &mut [u32],
        codes: &mut [u8],
    ) -> Answer {
        Chart::parse(text)?.dry_run_in(size, image, words, masks, codes)
    }

    fn priced_run(
        &self,
        image: &[u8],
        state: &mut proved::State,
        prices: &Prices,
        words: &[u16],
        masks: &mut [u32],
        codes: &mut [u8],
    ) -> PricedReport {
        let priced =
            on(state, |state| Image::parse(image)?.priced_run_in(state, prices, words, masks, codes));
        let price = priced.map_or(0, |priced| priced.price);
        let answer = priced.and_then(|priced| priced.stopped.map_or(Ok(priced.ticks), Err));
        PricedReport { answer, price }
    }

    fn tick(&self, image: &[u8], state: &mut proved::State, word: u16) -> Result<Tick, Refusal> {
        on(state, |state| Image::parse(image)?.tick(state, word)).map(emitted)
    }

    fn spin(
        &self,
        states: &mut [proved::State],
        taken: &mut usize,
        spindle: usize,
        image: &[u8],
        word: u16,
    ) -> Result<Tick, Refusal> {
        match (Image::parse(image), spindles(states, *taken)) {
            (Ok(image), Some(kept)) => {
                spun(states, taken, kept, |kept| kept.tick_by_image(spindle, &image, word))
            }
            _ => Proved.spin(states, taken, spindle, image, word),
        }
    }

    fn rebind(&self, image: &[u8], state: &mut proved::State, number: usize, scheme: usize) -> Answer {
        on(state, |state| Image::parse(image)?.rebind(state, number, scheme)).map(|()| 0)
    }

    fn cause(&self, image: &[u8], state: &proved::State, word: u16) -> Result<Cause, Refusal> {
        let cause = Image::parse(image)?.cause(&typed(state), word)?;
        Ok(Cause { row: cause.row, mask: cause.mask, bit: cause.bit.map_or(2, u8::from) })
    }

    fn list_rows(&self, image: &[u8], firsts: &mut [u16], counts: &mut [u16]) -> Answer {
        let listing = Image::parse(image)?.list_rows()?;
        let labels = listing.labels();
        let firsts = firsts.get_mut(..labels).ok_or(Refusal::NoRoom)?;
        let counts = counts.get_mut(..labels).ok_or(Refusal::NoRoom)?;
        for (label, (first, count)) in firsts.iter_mut().zip(counts).enumerate() {
            let rows = listing.rows(label).expect("a label");
            (*first, *count) = (rows.start as u16, rows.len() as u16);
        }
        Ok(labels)
    }

    fn minimise(&self, image: &[u8], out: &mut [u8]) -> Answer {
        Ok(Image::parse(image)?.minimise_in(out)?.text().len())
    }

    fn little_chart(&self, frames: usize, number: usize, text: &mut [u8]) -> Answer {
        let chart = Chart::little(frames, number)?;
        text.get_mut(..chart.text().len()).ok_or(Refusal::NoRoom)?.copy_from_slice(chart.text());
        Ok(chart.text().len())
    }

    fn count_fillings(
        &self,
        image: &[u8],
        size: usize,
        ticks: usize,
        conditions: usize,
    ) -> Result<Fillings, Refusal> {
        Image::parse(image)?.count_fillings(size, ticks, conditions)
    }

    fn prepare(&self, image: &[u8], table: &mut [u8]) -> Answer {
        Ok(Table::prepare_in(image, table)?.bytes().len())
    }

    fn check_table(&self, table: &[u8]) -> Answer {
        Table::parse(table).map(|_| 0)
    }

    fn sum(&self, sum: u32, bytes: &[u8]) -> u32 {
        fairleadow::sum(sum, bytes)
    }

    fn live_run(
        &self,
        bytes: &[u8],
        state: &mut proved::State,
        words: &[u16],
        masks: &mut [u32],
        codes: &mut [u8],
    ) -> Answer {
        let Some(table) = table(bytes) else { return Proved.live_run(bytes, state, words, masks, codes) };
        on(state, |state| table.run_in(state, words, masks, codes))
    }

    fn live_tick(&self, bytes: &[u8], state: &mut proved::State, word: u16) -> Result<Tick, Refusal> {
        match table(bytes) {
            Some(table) => on(state, |state| table.tick(state, word)).map(emitted),
            None => Proved.live_tick(bytes, state, word),
        }
    }

    fn live_spin(
        &self,
        states: &mut [proved::State],
        taken: &mut usize,
        spindle: usize,
        bytes: &[u8],
        word: u16,
    ) -> Result<Tick, Refusal> {
        match (table(bytes), spindles(states, *taken)) {
            (Some(table), Some(kept)) => spun(states, taken, kept, |kept| kept.tick(spindle, &table, word)),
            _ => Proved.live_spin(states, taken, spindle, bytes, word),
        }
    }

    fn live_rebind(&self, bytes: &[u8], state: &mut proved::State, number: usize, scheme: usize) -> Answer {
        match table(bytes) {
            Some(table) => on(state, |state| table.rebind(state, number, scheme)).map(|()| 0),
            None => Proved.live_rebind(bytes, state, number, scheme),
        }
    }

    fn meaning(&self, code: u8) -> Meaning {
        fairleadow::meaning(code)
    }
}

#[test]
fn the_typed_calls_agree_with_the_reference() {
    match compare(&Typed, SEED, CASES) {
        Ok(summary) => println!("seed {SEED}, {CASES} cases, each call's answers:\n{summary}"),
        Err(difference) => panic!("{difference}"),
    }
}

#[test]
fn all_codes_have_the_meaning_of_the_calls_of_c() {
    for code in 0..=255 {
        assert_eq!(Typed.meaning(code), Proved.meaning(code));
    }
}

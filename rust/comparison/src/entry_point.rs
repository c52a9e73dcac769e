//! The entry points as values, so that one list of inputs serves every library: what a call is handed, and all that it
//! answers and leaves.

use interface::{CHART_TEXT, IMAGE_TEXT, LABELS, LITTLE_TEXT, OPERATIONS, RECORDS, SPINDLES, TABLE};
use reference::answer::Answer;
use reference::entry::{minimised, translated};
use reference::frames::{text_of, Frame};
use reference::library::{Cause, Fillings, Library, Meaning, PricedReport, Prices, Refusal, Tick};
use reference::state::State;

#[derive(Clone, Copy, Debug, PartialEq, Eq)]
pub enum EntryPoint {
    ReadChart,
    WriteChart,
    Translate,
    Places,
    CheckImage,
    Prepare,
    Tick,
    Run,
    DryRun,
    PricedRun,
    Cause,
    ListRows,
    Minimise,
    LittleChart,
    CountFillings,
    Rebind,
    Spin,
    CheckTable,
    Sum,
    LiveTick,
    LiveRun,
    LiveRebind,
    LiveSpin,
    Fresh,
    Meaning,
}

/// What a call is handed; each takes what it needs of this.
#[derive(Clone, Debug, PartialEq, Eq)]
pub struct Input {
    /// Node records, or the frames of an image or of a table.
    pub frames: Vec<Frame>,
    pub state: State,
    pub words: Vec<u16>,
    pub prices: Prices,
    /// A stack's size, a code, how many frames a little chart has, or the number of a spindle.
    pub value: usize,
    /// A little chart's number.
    pub chart: usize,
    /// The ticks and the conditions of the lists that are counted.
    pub lists: (usize, usize),
    /// A number, and the scheme that is to serve it.
    pub rebinding: (usize, usize),
}

impl Input {
    /// A chart's records or an image's frames, and nothing besides but the highest prices and a rebinding that any image with calls
    /// allows.
    pub fn of(frames: Vec<Frame>) -> Input {
        let prices = [u16::MAX; OPERATIONS];
        Input {
            frames,
            state: State::NONE,
            words: vec![0],
            prices,
            value: 0,
            chart: 0,
            lists: (4, 2),
            rebinding: (2, 2),
        }
    }
}

/// What a call answers, and what it leaves in the buffers and the state that it was lent. What has no count counts 0, a tick 1. The three
/// counts of lists, and a sum, go to the masks.
#[derive(Debug, PartialEq, Eq)]
pub struct Made {
    pub answer: Answer,
    pub cause: Option<Cause>,
    pub meaning: Option<Meaning>,
    pub bytes: Vec<u8>,
    pub numbers: Vec<u16>,
    pub masks: Vec<u32>,
    pub codes: Vec<u8>,
    pub price: Option<u64>,
    pub state: State,
    pub states: Vec<State>,
}

impl EntryPoint {
    pub const ALL: [EntryPoint; 25] = [
        EntryPoint::ReadChart,
        EntryPoint::WriteChart,
        EntryPoint::Translate,
        EntryPoint::Places,
        EntryPoint::CheckImage,
        EntryPoint::Prepare,
        EntryPoint::Tick,
        EntryPoint::Run,
        EntryPoint::DryRun,
        EntryPoint::PricedRun,
        EntryPoint::Cause,
        EntryPoint::ListRows,
        EntryPoint::Minimise,
        EntryPoint::LittleChart,
        EntryPoint::CountFillings,
        EntryPoint::Rebind,
        EntryPoint::Spin,
        EntryPoint::CheckTable,
        EntryPoint::Sum,
        EntryPoint::LiveTick,
        EntryPoint::LiveRun,
        EntryPoint::LiveRebind,
        EntryPoint::LiveSpin,
        EntryPoint::Fresh,
        EntryPoint::Meaning,
    ];

    pub fn name(self) -> &'static str {
        match self {
            EntryPoint::ReadChart => "read_chart",
            EntryPoint::WriteChart => "write_chart",
            EntryPoint::Translate => "translate",
            EntryPoint::Places => "places",
            EntryPoint::CheckImage => "check_image",
            EntryPoint::Prepare => "prepare",
            EntryPoint::Tick => "tick",
            EntryPoint::Run => "run",
            EntryPoint::DryRun => "dry_run",
            EntryPoint::PricedRun => "priced_run",
            EntryPoint::Cause => "cause",
            EntryPoint::ListRows => "list_rows",
            EntryPoint::Minimise => "minimise",
            EntryPoint::LittleChart => "little_chart",
            EntryPoint::CountFillings => "count_fillings",
            EntryPoint::Rebind => "rebind",
            EntryPoint::Spin => "spin",
            EntryPoint::CheckTable => "check_table",
            EntryPoint::Sum => "sum",
            EntryPoint::LiveTick => "live_tick",
            EntryPoint::LiveRun => "live_run",
            EntryPoint::LiveRebind => "live_rebind",
            EntryPoint::LiveSpin => "live_spin",
            EntryPoint::Fresh => "fresh",
            EntryPoint::Meaning => "meaning",
        }
    }

    /// Makes the call, with buffers that are never too short.
    pub fn make(self, library: &dyn Library, input: &Input) -> Made {
        let Input { frames, state, words, prices, value, chart, lists, rebinding: (number, scheme) } = input;
        let (text, bytes) = (|| text_of(frames), || frames.concat());
        match self {
            EntryPoint::ReadChart => written(RECORDS, |out| library.read_chart(&text(), out)),
            EntryPoint::WriteChart => written(CHART_TEXT, |out| library.write_chart(&bytes(), out)),
            EntryPoint::Translate => written(IMAGE_TEXT, |out| library.translate(&text(), out)),
            EntryPoint::Places => answered(library.places(&text())),
            EntryPoint::CheckImage => answered(library.check_image(&text())),
            EntryPoint::Prepare => written(TABLE, |out| library.prepare(&text(), out)),
            EntryPoint::Tick => ticked(state, |after| library.tick(&text(), after, words[0])),
            EntryPoint::LiveTick => ticked(state, |after| library.live_tick(&bytes(), after, words[0])),
            EntryPoint::Run => ran(state, words.len(), |after, masks, codes| {
                library.run(&text(), after, words, masks, codes)
            }),
            EntryPoint::DryRun => {
                // just as long as needed, as for a smaller image
                let mut image = vec![0xAA; translated(&text()).map_or(0, |image| image.len())];
                let made = ran(&State::NONE, words.len(), |_, masks, codes| {
                    library.dry_run(&text(), *value, &mut image, words, masks, codes)
                });
                Made { bytes: image, ..made }
            }
            EntryPoint::PricedRun => {
                let mut paid = None;
                let made = ran(state, words.len(), |after, masks, codes| {
                    let PricedReport { answer, price } =
                        library.priced_run(&text(), after, prices, words, masks, codes);
                    paid = Some(price);
                    answer
                });
                Made { price: paid, ..made }
            }
            EntryPoint::Cause => {
                let cause = library.cause(&text(), state, words[0]);
                Made { cause: cause.ok(), ..answered(cause.map(|_| 0)) }
            }
            EntryPoint::ListRows => {
                let (mut firsts, mut counts) = (vec![0xAAAA; LABELS], vec![0xAAAA; LABELS]);
                let answer = library.list_rows(&text(), &mut firsts, &mut counts);
                Made { numbers: [firsts, counts].concat(), ..answered(answer) }
            }
            EntryPoint::Minimise => {
                // just as long as needed: the board has no room for two of the longest texts
                let room = minimised(&text()).map_or(0, |smaller| smaller.len());
                written(room, |out| library.minimise(&text(), out))
            }
            EntryPoint::LittleChart => written(LITTLE_TEXT, |out| library.little_chart(*value, *chart, out)),
            EntryPoint::CountFillings => {
                let (ticks, conditions) = *lists;
                let counted = library.count_fillings(&text(), *value, ticks, conditions);
                let masks = counted
                    .map_or(Vec::new(), |Fillings { ended, full, unmatched }| vec![ended, full, unmatched]);
                Made { masks, ..answered(counted.map(|_| 0)) }
            }
            EntryPoint::Rebind => rebound(state, |after| library.rebind(&text(), after, *number, *scheme)),
            EntryPoint::LiveRebind => {
                rebound(state, |after| library.live_rebind(&bytes(), after, *number, *scheme))
            }
            EntryPoint::Spin => {
                spun(state, *value, |states, taken| library.spin(states, taken, *value, &text(), words[0]))
            }
            EntryPoint::CheckTable => answered(library.check_table(&bytes())),
            EntryPoint::Sum => Made { masks: vec![library.sum(0, &bytes())], ..answered(Ok(0)) },
            EntryPoint::LiveSpin => spun(state, *value, |states, taken| {
                library.live_spin(states, taken, *value, &bytes(), words[0])
            }),
            EntryPoint::LiveRun => ran(state, words.len(), |after, masks, codes| {
                library.live_run(&bytes(), after, words, masks, codes)
            }),
            EntryPoint::Fresh => {
                let fresh = library.fresh(*value);
                Made { state: fresh.unwrap_or(State::NONE), ..answered(fresh.map(|_| 0)) }
            }
            EntryPoint::Meaning => {
                let meaning = library.meaning(*value as u8);
                Made { meaning: Some(meaning), ..answered(Ok(0)) }
            }
        }
    }
}

fn answered(answer: Answer) -> Made {
    let (bytes, numbers, masks, codes) = (Vec::new(), Vec::new(), Vec::new(), Vec::new());
    let (cause, meaning, price) = (None, None, None);
    let (state, states) = (State::NONE, Vec::new());
    Made { answer, cause, meaning, bytes, numbers, masks, codes, price, state, states }
}

fn written(room: usize, call: impl FnOnce(&mut [u8]) -> Answer) -> Made {
    let mut bytes = vec![0xAA; room];
    let answer = call(&mut bytes);
    Made { bytes, ..answered(answer) }
}

fn ticked(state: &State, call: impl FnOnce(&mut State) -> Result<Tick, Refusal>) -> Made {
    let mut state = *state;
    let made = emitted(call(&mut state));
    Made { state, ..made }
}

fn emitted(ticked: Result<Tick, Refusal>) -> Made {
    let (masks, codes) = ticked.iter().map(|tick| (tick.mask, tick.code)).unzip();
    Made { masks, codes, ..answered(ticked.map(|_| 1)) }
}

/// The state is that of this spindle, the others take a place each; the record of places goes to the numbers.
fn spun(
    state: &State,
    spindle: usize,
    call: impl FnOnce(&mut [State], &mut usize) -> Result<Tick, Refusal>,
) -> Made {
    let mut states = vec![State { depth: 1, ..State::NONE }; SPINDLES];
    states[spindle] = *state;
    let mut taken = SPINDLES - 1 + usize::from(state.depth);
    let made = emitted(call(&mut states, &mut taken));
    Made { states, numbers: vec![taken as u16], ..made }
}

fn rebound(state: &State, call: impl FnOnce(&mut State) -> Answer) -> Made {
    let mut state = *state;
    let answer = call(&mut state);
    Made { state, ..answered(answer) }
}

fn ran(state: &State, room: usize, call: impl FnOnce(&mut State, &mut [u32], &mut [u8]) -> Answer) -> Made {
    let (mut state, mut masks, mut codes) = (*state, vec![0xAAAA; room], vec![0xAA; room]);
    let answer = call(&mut state, &mut masks, &mut codes);
    Made { masks, codes, state, ..answered(answer) }
}

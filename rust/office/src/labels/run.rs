//! The ticks that the library makes of an image, from a fresh state: the label of each, and the row that it takes.

use std::collections::{BTreeMap, HashMap};

use fairleadow::{Library, Proved, Refusal, State};

use crate::explain;
use crate::image::{Image, Open};
use crate::kind::Kind;
use crate::problem::Problem;
use crate::trace::swaps::{self, Swap};
use crate::trace::{fresh, Happening};

/// One tick, with the swaps made right before it. The stack holds the open labels before the tick, the bottom first, and `server` is the
/// scheme that a call opens, 0 where none is made; the results are those after it. A tick that goes by no row has none.
#[derive(Clone, Debug)]
pub struct LabelTick {
    pub swaps: Vec<Swap>,
    pub word: u16,
    pub stack: Vec<Open>,
    pub server: u8,
    pub code: u8,
    pub mask: u32,
    pub results: [bool; 16],
    pub row: Option<u16>,
}

impl LabelTick {
    /// The label that the tick stands for, and the scheme that is open there.
    pub fn open(&self) -> Open {
        self.stack[self.stack.len() - 1]
    }

    pub fn happening(&self) -> Happening {
        Happening::of(self.code)
    }
}

/// The refusal that ended a run, with the swaps, the word and the stack that met it.
#[derive(Clone, Debug)]
pub struct LabelStop {
    pub refusal: Refusal,
    pub swaps: Vec<Swap>,
    pub word: u16,
    pub stack: Vec<Open>,
}

/// The ticks made, the refusal that ended them, if any, and how often each label, End and row was taken, and each call by the scheme that
/// served it.
#[derive(Clone, Debug)]
pub struct LabelRun {
    pub places: usize,
    pub ticks: Vec<LabelTick>,
    pub stopped: Option<LabelStop>,
    labels: BTreeMap<(u8, u8), usize>,
    rows: BTreeMap<u16, usize>,
    calls: BTreeMap<(u8, u8), usize>,
}

/// A run that is being made: the image's table, and the state that the next tick finds.
#[derive(Clone, Debug)]
pub struct Running {
    table: Vec<u8>,
    state: State,
    causes: Causes,
    pub run: LabelRun,
}

impl Running {
    /// Prepares the image once for all ticks, or tells why the stack size is refused.
    pub fn begin(image: &Image, places: usize) -> Result<Running, Problem> {
        let run = LabelRun {
            places,
            ticks: Vec::new(),
            stopped: None,
            labels: BTreeMap::new(),
            rows: BTreeMap::new(),
            calls: BTreeMap::new(),
        };
        Ok(Running { table: image.prepared()?, state: fresh(places)?, causes: Causes::of(image), run })
    }

    /// Makes the swaps of this tick and ticks once, or tells why a swap is refused. After a refused tick there is none.
    pub fn tick(&mut self, image: &Image, word: u16, swaps: &[Swap]) -> Result<(), Problem> {
        if self.run.stopped.is_some() {
            return Ok(());
        }
        let number = self.run.ticks.len();
        self.state = self.may_swap(swaps)?;
        let swaps: Vec<Swap> = swaps::of_tick(swaps, number).copied().collect();
        let (before, stack) = (self.state, image.open(&self.state));
        let ticked = match Proved.live_tick(&self.table, &mut self.state, word) {
            Ok(ticked) => ticked,
            Err(refusal) => {
                let refusal = refusal.after(number);
                self.run.stopped = Some(LabelStop { refusal, swaps, word, stack });
                return Ok(());
            }
        };
        let happening = Happening::of(ticked.code);
        let row = match happening {
            Happening::Plain | Happening::Return => self.causes.row(image, &before, &stack, word)?,
            Happening::Home | Happening::Call(_) | Happening::Drop => None,
        };
        let server = match happening {
            Happening::Call(_) => self.state.servers[usize::from(self.state.depth) - 1],
            _ => 0,
        };
        let (code, mask, results) = (ticked.code, ticked.mask, self.state.results);
        self.run.note(LabelTick { swaps, word, stack, server, code, mask, results, row });
        Ok(())
    }

    /// The state after the swaps of the next tick, or why one is refused.
    pub fn may_swap(&self, swaps: &[Swap]) -> Result<State, Problem> {
        let mut state = self.state;
        swaps::make(swaps, self.run.ticks.len(), &self.table, &mut state)?;
        Ok(state)
    }

    /// What is open now, the bottom first.
    pub fn open(&self, image: &Image) -> Vec<Open> {
        image.open(&self.state)
    }
}

/// Prepares the image once and ticks it over the words, with swaps before some of them, or tells why stack size or a swap are refused.
pub fn run(image: &Image, places: usize, words: &[u16], swaps: &[Swap]) -> Result<LabelRun, Problem> {
    let mut running = Running::begin(image, places)?;
    words.iter().try_for_each(|word| running.tick(image, *word, swaps))?;
    Ok(running.run)
}

/// The rows that the library says ticks take: a label takes one by the conditions that its rows ask for and the result that it reads,
/// whatever else stands in the state.
#[derive(Clone, Debug)]
struct Causes {
    /// The conditions that the rows of each label ask for.
    asked: Vec<u16>,
    rows: HashMap<(u8, u16, bool), u16>,
}

impl Causes {
    fn of(image: &Image) -> Causes {
        let mut asked = vec![0; image.labels()];
        image.rows().for_each(|row| asked[usize::from(row.from)] |= row.care);
        Causes { asked, rows: HashMap::new() }
    }

    /// The row of a plain tick or a return; none where the handler returns with nothing beneath it.
    fn row(
        &mut self,
        image: &Image,
        before: &State,
        stack: &[Open],
        word: u16,
    ) -> Result<Option<u16>, Problem> {
        let leaving = match stack {
            [.., beneath, top] if top.label == 1 => beneath.label,
            [top] if top.label == 1 => return Ok(None),
            [.., top] => top.label,
            [] => return Ok(None),
        };
        let asked = self.asked[usize::from(leaving)];
        let result = before.results[usize::from(image.called(leaving).max(1)) - 1];
        let key = (leaving, word & asked, result);
        if let Some(row) = self.rows.get(&key) {
            return Ok(Some(*row));
        }
        let cause = Proved.cause(&image.text, before, word);
        let cause = cause.map_err(|refusal| explain::refusal(&image.text, Kind::Image, refusal))?;
        self.rows.insert(key, cause.row);
        Ok(Some(cause.row))
    }
}

impl LabelRun {
    fn note(&mut self, tick: LabelTick) {
        let Open { label, scheme, .. } = tick.open();
        *self.labels.entry((label, scheme)).or_default() += 1;
        if let Happening::Call(_) = tick.happening() {
            *self.calls.entry((label, tick.server)).or_default() += 1;
        }
        if let Some(row) = tick.row {
            *self.rows.entry(row).or_default() += 1;
        }
        self.ticks.push(tick);
    }

    /// How often a label was taken in a scheme.
    pub fn times(&self, label: u8, scheme: u8) -> usize {
        self.labels.get(&(label, scheme)).copied().unwrap_or(0)
    }

    /// How often a row was taken.
    pub fn row_times(&self, row: usize) -> usize {
        self.rows.get(&(row as u16)).copied().unwrap_or(0)
    }

    pub fn row_taken(&self, row: usize) -> bool {
        self.row_times(row) > 0
    }

    /// Whether the call of a label was made and opened this scheme.
    pub fn call_taken(&self, label: u8, server: u8) -> bool {
        self.calls.contains_key(&(label, server))
    }

    /// The schemes that served the call of a label.
    pub fn servers(&self, label: u8) -> impl Iterator<Item = u8> + '_ {
        self.calls.keys().filter(move |(own, _)| *own == label).map(|(_, server)| *server)
    }
}

/// Every place of an image: the labels of each scheme and its End, scheme by scheme.
pub fn places(image: &Image) -> Vec<(u8, u8)> {
    let of_scheme = |scheme: u8| {
        let own = (2..image.labels())
            .map(|label| label as u8)
            .filter(move |label| image.label(*label).owner == scheme);
        own.chain([crate::image::end_of(scheme)]).map(move |label| (label, scheme))
    };
    (1..=image.schemes()).flat_map(of_scheme).collect()
}

//! What demand 3 says of a list of runs and rebindings, computed from the walk over the joined words and nothing else.

use crate::answer::{refuse_if, Answer, Refusal};
use crate::chart::Chart;
use crate::price::{price, Prices, PRICED_WORDS};
use crate::state::{can_rebind, OWN};
use crate::walk::{walk_told, Signal, Tick};

/// One run of a list: its words, its output buffers as they stand before it, and the prices by which it is priced, if it is.
#[derive(Clone, Debug)]
pub struct Run {
    pub words: Vec<u16>,
    pub masks: Vec<u32>,
    pub codes: Vec<u8>,
    pub prices: Option<Prices>,
}

impl Run {
    /// What refuses it before its first tick: 27, where it is priced and has too many words, or 16, where a buffer has no room for
    /// all of them.
    fn tried(&self) -> Result<(), Refusal> {
        let words = self.words.len();
        refuse_if(Refusal::ManyWords, self.prices.is_some() && words > PRICED_WORDS)?;
        refuse_if(Refusal::NoRoom, self.masks.len() < words || self.codes.len() < words)
    }

    /// Whether its words join those of the list: only where it is not refused so.
    pub fn joins(&self) -> bool {
        self.tried().is_ok()
    }
}

/// One call of a list.
#[derive(Clone, Debug)]
pub enum Step {
    Run(Run),
    /// A number, and the scheme that is to serve it.
    Rebind(usize, usize),
}

/// What a call answers, what its buffers hold afterwards, and the price of a run that is priced; a rebinding has neither.
#[derive(Clone, Debug, PartialEq, Eq)]
pub struct Outcome {
    pub answer: Answer,
    pub masks: Vec<u32>,
    pub codes: Vec<u8>,
    pub price: Option<u64>,
}

impl Outcome {
    pub fn of_rebinding(answer: Answer) -> Outcome {
        Outcome { answer, masks: Vec::new(), codes: Vec::new(), price: None }
    }
}

fn allowed(chart: &Chart, number: usize, scheme: usize) -> bool {
    can_rebind(chart.schemes().into(), chart.handler().unwrap_or(0), number, scheme)
}

/// The words of all runs that join, each with the binding that the rebindings before it have made, less those that 22 refuses.
fn joined(chart: &Chart, steps: &[Step]) -> Vec<Signal> {
    let (mut binding, mut signals) = (OWN, Vec::new());
    for step in steps {
        match step {
            Step::Run(run) if run.joins() => {
                signals.extend(run.words.iter().map(|word| Signal { word: *word, binding }));
            }
            Step::Rebind(number, scheme) if allowed(chart, *number, *scheme) => {
                binding[number - 1] = *scheme as u8;
            }
            _ => {}
        }
    }
    signals
}

/// The outcome of each call of a list that starts with a fresh state of this size.
pub fn expected(chart: &Chart, size: usize, steps: &[Step]) -> Vec<Outcome> {
    let ticks = walk_told(chart, size, &joined(chart, steps));
    let full = |tick: &Tick| tick.calls() && tick.open == size;
    let bound = ticks.iter().position(full).unwrap_or(ticks.len());
    let mut first = 0;
    let mut outcomes = Vec::new();
    for step in steps {
        let run = match step {
            Step::Run(run) => run,
            Step::Rebind(number, scheme) => {
                let tried = refuse_if(Refusal::BadRebinding, !allowed(chart, *number, *scheme));
                outcomes.push(Outcome::of_rebinding(tried.map(|()| 0)));
                continue;
            }
        };
        let end = if run.joins() { first + run.words.len() } else { first };
        outcomes.push(outcome(run, &ticks[first.min(bound)..end.min(bound)], bound < end));
        first = end;
    }
    outcomes
}

/// The outcome of one run, given the ticks that fall on its words, and whether the bound lies before its end.
fn outcome(run: &Run, ticks: &[Tick], passed: bool) -> Outcome {
    let count = ticks.len();
    let stopped = refuse_if(Refusal::Full { ticks: count }, passed && !run.words.is_empty());
    let answer = run.tried().and(stopped).map(|()| count);
    let mut masks = run.masks.clone();
    let mut codes = run.codes.clone();
    for (k, tick) in ticks.iter().enumerate() {
        masks[k] = tick.mask;
        codes[k] = tick.code;
    }
    let walked: Vec<u32> = ticks.iter().map(|tick| tick.mask).collect();
    Outcome { answer, masks, codes, price: run.prices.map(|prices| price(&prices, &walked)) }
}

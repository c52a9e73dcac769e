//! The ticks that the proved library makes of a chart, from a fresh state.

use fairleadow::{Library, Meaning, Proved, Refusal, State};

use super::arcs::{path, Arc, Path};
use super::swaps::{self, Swap};
use super::Coverage;
use crate::explain;
use crate::kind::Kind;
use crate::plan::Plan;
use crate::problem::{counted, Problem};
use crate::wording;

/// What a tick does, as the library reads its code.
#[derive(Clone, Copy, Debug, PartialEq, Eq)]
pub enum Happening {
    Plain,
    Return,
    Home,
    Call(u8),
    /// A call that found the stack full: every open scheme is dropped, and the handler starts.
    Drop,
}

impl Happening {
    pub fn of(code: u8) -> Happening {
        match Proved.meaning(code) {
            Meaning::Return => Happening::Return,
            Meaning::Home => Happening::Home,
            Meaning::OperationCall(number) | Meaning::FunctionCall(number) => Happening::Call(number),
            Meaning::Drop => Happening::Drop,
            // the second is no tick's code
            Meaning::Plain | Meaning::Unknown => Happening::Plain,
        }
    }
}

/// A scheme that is open: its node, and the number that it was called by, which another scheme may serve.
#[derive(Clone, Copy, Debug, PartialEq, Eq)]
pub struct Opened {
    pub node: usize,
    pub number: u8,
}

/// One tick, with the swaps made right before it. The stack holds the open schemes before the tick, the bottom first, and `server`
/// is the scheme that a call opens, 0 where none is made; the result bits are those after it.
#[derive(Clone, Debug)]
pub struct Tick {
    pub swaps: Vec<Swap>,
    pub word: u16,
    pub stack: Vec<Opened>,
    pub server: u8,
    pub code: u8,
    pub mask: u32,
    pub results: [bool; 16],
    pub arcs: Vec<Arc>,
}

impl Tick {
    /// The node that the tick stands for.
    pub fn node(&self) -> usize {
        self.stack[self.stack.len() - 1].node
    }

    pub fn happening(&self) -> Happening {
        Happening::of(self.code)
    }
}

/// The refusal that ended a trace, with the swaps, the word and the stack that met it.
#[derive(Clone, Debug)]
pub struct Stopped {
    pub refusal: Refusal,
    pub swaps: Vec<Swap>,
    pub word: u16,
    pub stack: Vec<Opened>,
}

/// The ticks made, the refusal that ended them, if any, and what was taken.
#[derive(Clone, Debug)]
pub struct Trace {
    pub places: usize,
    pub ticks: Vec<Tick>,
    pub stopped: Option<Stopped>,
    pub coverage: Coverage,
}

/// A trace that is being made: the chart's table, and the state that the next tick finds.
#[derive(Clone, Debug)]
pub struct Run {
    table: Vec<u8>,
    state: State,
    pub trace: Trace,
}

impl Run {
    /// Prepares the chart's image once for all ticks, or tells why chart or stack size are refused.
    pub fn begin(plan: &Plan, places: usize) -> Result<Run, Problem> {
        let table = plan.image.as_ref().map_err(Problem::clone)?.prepared()?;
        let trace = Trace { places, ticks: Vec::new(), stopped: None, coverage: Coverage::none(plan) };
        Ok(Run { table, state: fresh(places)?, trace })
    }

    /// Makes the swaps of this tick and ticks once, or tells why a swap is refused. After a refused tick there is none.
    pub fn tick(&mut self, plan: &Plan, word: u16, swaps: &[Swap]) -> Result<(), Problem> {
        if self.trace.stopped.is_some() {
            return Ok(());
        }
        let number = self.trace.ticks.len();
        self.may_swap(swaps).map(|state| self.state = state)?;
        let swaps = swaps::of_tick(swaps, number).copied().collect();
        match tick(plan, &self.table, &mut self.state, swaps, word)? {
            Ok(tick) => {
                self.trace.coverage.note(&tick);
                self.trace.ticks.push(tick);
            }
            Err(stopped) => {
                let refusal = stopped.refusal.after(number);
                self.trace.stopped = Some(Stopped { refusal, ..stopped });
            }
        }
        Ok(())
    }

    /// The state after the swaps of the next tick, or why one is refused.
    pub fn may_swap(&self, swaps: &[Swap]) -> Result<State, Problem> {
        let mut state = self.state;
        swaps::make(swaps, self.trace.ticks.len(), &self.table, &mut state)?;
        Ok(state)
    }

    /// What is open now, the bottom first.
    pub fn open(&self, plan: &Plan) -> Vec<Opened> {
        stack(plan, &self.state)
    }
}

/// Prepares the chart's image once and ticks it over the words, with swaps before some of them, or tells why chart, stack size or a swap
/// are refused.
pub fn trace(plan: &Plan, places: usize, words: &[u16], swaps: &[Swap]) -> Result<Trace, Problem> {
    let mut run = Run::begin(plan, places)?;
    words.iter().try_for_each(|word| run.tick(plan, *word, swaps))?;
    Ok(run.trace)
}

/// A fresh state, or why there is none of so many places.
pub fn fresh(places: usize) -> Result<State, Problem> {
    Proved.fresh(places).map_err(|refusal| {
        let words = format!("a stack of {} is asked for", counted(places, "place"));
        Problem { words, ..explain::refusal(&[], Kind::Image, refusal) }
    })
}

/// One tick of the library's, with its node and arcs, or the refusal that met it.
fn tick(
    plan: &Plan,
    table: &[u8],
    state: &mut State,
    swaps: Vec<Swap>,
    word: u16,
) -> Result<Result<Tick, Stopped>, Problem> {
    let (stack, before) = (stack(plan, state), results(state));
    let ticked = match Proved.live_tick(table, state, word) {
        Ok(ticked) => ticked,
        Err(refusal) => return Ok(Err(Stopped { refusal, swaps, word, stack })),
    };
    let happening = Happening::of(ticked.code);
    let server = match happening {
        Happening::Call(_) => state.servers[usize::from(state.depth) - 1],
        _ => 0,
    };
    let nodes: Vec<usize> = stack.iter().map(|opened| opened.node).collect();
    let path = path(plan, happening, server, &nodes, &before, word);
    let reached = self::stack(plan, state).pop().map(|opened| opened.node);
    if Some(path.end) != reached {
        let (found, word) = (plan.node_title(path.end), wording::word(word));
        let what = format!(
            "by word {word} the arcs lead to node {found}, and the library's state stands at another"
        );
        return Err(Problem::internal(what));
    }
    let results = results(state);
    let Path { arcs, .. } = path;
    Ok(Ok(Tick { swaps, word, stack, server, code: ticked.code, mask: ticked.mask, results, arcs }))
}

/// What is open in a state, the bottom first: each label with the scheme that the state remembers for it.
fn stack(plan: &Plan, state: &State) -> Vec<Opened> {
    let opened = |at: usize| Opened {
        node: plan.marking.node(state.places[at], state.servers[at]),
        number: state.numbers[at],
    };
    (0..usize::from(state.depth)).map(opened).collect()
}

/// The result bits of a state, that of number 1 first.
fn results(state: &State) -> [bool; 16] {
    state.results
}

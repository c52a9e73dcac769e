//! What paper 02 says of a list of calls on four spindles, each with the image of a chart and a fresh state, computed from their walks
//! and a count of places and nothing else.

use crate::answer::{Answer, Refusal};
use crate::chart::Chart;
use crate::state::{can_rebind, Binding, OWN};
use crate::walk::{walk_told, Signal, Tick};
use interface::{SPINDLES, STORE};

/// One call of a list.
#[derive(Clone, Copy, Debug)]
pub enum Turn {
    Spin {
        spindle: usize,
        word: u16,
    },
    /// A number, and the scheme that is to serve it on this spindle.
    Rebind {
        spindle: usize,
        number: usize,
        scheme: usize,
    },
}

/// What a call answers: the tick of a spindle, or what a rebinding counts.
#[derive(Clone, Copy, Debug, PartialEq, Eq)]
pub enum Made {
    Tick(interface::Tick),
    Rebinding(usize),
}

/// What a call answers, and the depths that it leaves.
#[derive(Clone, Debug, PartialEq, Eq)]
pub struct Told {
    pub answer: Result<Made, Refusal>,
    pub depths: [usize; SPINDLES],
}

/// A spindle: its chart, its stack's size, which scheme serves each number, the words of its finished ticks, and its depth.
struct Spindle<'a> {
    chart: &'a Chart,
    size: usize,
    binding: Binding,
    finished: Vec<Signal>,
    depth: usize,
}

impl Spindle<'_> {
    /// The tick that its walk makes by this word after those that are finished, or 17 or, where there is no place left, 26.
    fn tick(&mut self, word: u16, left: usize) -> Result<interface::Tick, Refusal> {
        self.finished.push(Signal { word, binding: self.binding });
        let tick = *walk_told(self.chart, self.size, &self.finished).last().expect("a tick a word");
        assert_eq!(tick.open, self.depth, "as many schemes are open as places are taken");
        let refusal = match tick.calls() {
            true if tick.open == self.size => Some(Refusal::Full { ticks: 0 }),
            true if left == 0 => Some(Refusal::NoPlace),
            _ => None,
        };
        if let Some(refusal) = refusal {
            self.finished.pop();
            return Err(refusal);
        }
        self.depth = depth_after(&tick);
        Ok(interface::Tick { mask: tick.mask, code: tick.code })
    }

    fn rebind(&mut self, number: usize, scheme: usize) -> Answer {
        let (schemes, handler) = (self.chart.schemes().into(), self.chart.handler().unwrap_or(0));
        if !can_rebind(schemes, handler, number, scheme) {
            return Err(Refusal::BadRebinding);
        }
        self.binding[number - 1] = scheme as u8;
        Ok(0)
    }
}

/// A call takes a place, a return above depth 1 gives one back, and a drop all but one.
fn depth_after(tick: &Tick) -> usize {
    match tick.code {
        _ if tick.calls() => tick.open + 1,
        0x03 if tick.open > 1 => tick.open - 1,
        0x60 => 1,
        _ => tick.open,
    }
}

/// What each call of a list answers that starts with fresh states of these sizes.
pub fn expected(spindles: [(&Chart, usize); SPINDLES], turns: &[Turn]) -> Vec<Told> {
    let fresh = |(chart, size)| Spindle { chart, size, binding: OWN, finished: Vec::new(), depth: 1 };
    let mut spindles = spindles.map(fresh);
    let mut told = Vec::new();
    for turn in turns {
        let left = STORE - spindles.iter().map(|spindle| spindle.depth).sum::<usize>();
        let answer = match *turn {
            Turn::Spin { spindle, .. } if spindle >= SPINDLES => Err(Refusal::NoSpindle),
            Turn::Spin { spindle, word } => spindles[spindle].tick(word, left).map(Made::Tick),
            Turn::Rebind { spindle, number, scheme } => {
                spindles[spindle].rebind(number, scheme).map(Made::Rebinding)
            }
        };
        let depths = std::array::from_fn(|k| spindles[k].depth);
        told.push(Told { answer, depths });
    }
    told
}

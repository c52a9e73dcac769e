//! The walk: a chart performed by recursion, one word a tick. It knows no label, no row and no stack, only the number of places, and
//! before each word it is told which scheme serves each number.

use crate::chart::{Chart, Kind};
use crate::state::{Binding, OWN};

/// One tick: the node that it is made at (for a home tick the End of scheme 1), and how many schemes are open then.
#[derive(Clone, Copy, Debug, PartialEq, Eq)]
pub struct Tick {
    pub node: usize,
    pub mask: u32,
    pub code: u8,
    pub open: usize,
}

impl Tick {
    /// Whether this tick calls a scheme: 12 to 20 and 42 to 50, hexadecimal. A drop, 60, is no call.
    pub fn calls(&self) -> bool {
        (0x12..=0x20).contains(&self.code) || (0x42..=0x50).contains(&self.code)
    }
}

/// Why performing a scheme ends before its End.
enum Ended {
    OutOfWords,
    /// All open schemes are dropped, and this one handles the full stack.
    Dropped(u8),
}

/// A word, and the binding that is told before it.
#[derive(Clone, Copy, Debug)]
pub struct Signal {
    pub word: u16,
    pub binding: Binding,
}

/// A scheme that is open: the number that it was called by, and how many schemes are open with it.
#[derive(Clone, Copy)]
struct Opened {
    number: u8,
    open: usize,
}

struct Walk<'a> {
    chart: &'a Chart,
    places: usize,
    signals: std::slice::Iter<'a, Signal>,
    /// The first of the open schemes.
    first: u8,
    results: [bool; 17],
    ticks: Vec<Tick>,
}

/// The ticks of the walk over these words, as many as there are words, with each number served by its own scheme.
pub fn walk(chart: &Chart, places: usize, words: &[u16]) -> Vec<Tick> {
    let signals: Vec<Signal> = words.iter().map(|word| Signal { word: *word, binding: OWN }).collect();
    walk_told(chart, places, &signals)
}

/// The ticks of the walk over these words, as many as there are words.
pub fn walk_told(chart: &Chart, places: usize, signals: &[Signal]) -> Vec<Tick> {
    let mut walk =
        Walk { chart, places, signals: signals.iter(), first: 1, results: [false; 17], ticks: Vec::new() };
    while walk.round().is_ok() {}
    walk.ticks
}

impl Walk<'_> {
    /// One tick: takes a word and notes what is emitted.
    fn tick(&mut self, node: usize, mask: u32, code: u8, open: usize) -> Result<Signal, Ended> {
        let signal = *self.signals.next().ok_or(Ended::OutOfWords)?;
        self.ticks.push(Tick { node, mask, code, open });
        Ok(signal)
    }

    /// A home tick, then scheme 1 up to its End, or up to a drop and the handler up to its own.
    fn round(&mut self) -> Result<(), Ended> {
        self.tick(self.chart.end(1), 0, 0x04, 1)?;
        match self.begin(1) {
            Err(Ended::Dropped(handler)) => {
                self.begin(handler)?;
                self.tick(self.chart.end(handler), 0, 0x03, 1)?;
                Ok(())
            }
            performed => performed,
        }
    }

    /// Performs a scheme, by its own number, as the first of the open ones.
    fn begin(&mut self, scheme: u8) -> Result<(), Ended> {
        self.first = scheme;
        self.perform(scheme, Opened { number: scheme, open: 1 })
    }

    /// Performs a scheme up to its End, whose tick is left to the caller.
    fn perform(&mut self, scheme: u8, opened: Opened) -> Result<(), Ended> {
        let mut at = self.chart.start(scheme);
        while self.chart.nodes[at].kind != Kind::End {
            at = self.stop(at, opened)?;
        }
        Ok(())
    }

    /// The handler that a call drops to when it finds so many schemes open: there is none unless all places are taken, and
    /// none for a handler that is first itself.
    fn handler(&self, open: usize) -> Option<u8> {
        self.chart.handler().filter(|handler| open == self.places && *handler != self.first)
    }

    /// An operation or function that calls. The call clears the result of the number called, performs the scheme that serves it now and
    /// makes the return tick of that one's End, whose word it hands back; or it drops all, and then clears the handler's result alone.
    fn call(&mut self, at: usize, Opened { number, open }: Opened) -> Result<u16, Ended> {
        let node = self.chart.nodes[at];
        let called = node.argument;
        let handler = self.handler(open);
        let code = match (handler, node.kind) {
            (Some(_), _) => 0x60,
            (None, Kind::Operation) => 0x10 + called,
            (None, _) => 0x40 + called,
        };
        let server = self.tick(at, node.mask, code, open)?.binding[usize::from(called) - 1];
        self.write(number, node.result);
        self.results[usize::from(handler.unwrap_or(called))] = false;
        if let Some(handler) = handler {
            return Err(Ended::Dropped(handler));
        }
        self.perform(server, Opened { number: called, open: open + 1 })?;
        Ok(self.tick(self.chart.end(server), 0, 0x03, open + 1)?.word)
    }

    /// One stop that is no End, with all that it calls; hands back the next stop.
    fn stop(&mut self, at: usize, opened: Opened) -> Result<usize, Ended> {
        let node = self.chart.nodes[at];
        let Opened { number, open } = opened;
        match node.kind {
            Kind::Operation if node.argument != 0 => {
                let word = self.call(at, opened)?;
                Ok(self.follow(node.on0, word))
            }
            Kind::Operation => {
                let word = self.tick(at, node.mask, 0x00, open)?.word;
                self.write(number, node.result);
                Ok(self.follow(node.on0, word))
            }
            Kind::Function => {
                let word = self.call(at, opened)?;
                let result = self.results[usize::from(node.argument)];
                Ok(self.follow(node.arc(result), word))
            }
            Kind::Begin => {
                let word = self.tick(at, 0, 0x00, open)?.word;
                Ok(self.follow(node.on0, word))
            }
            Kind::Condition => {
                let word = self.tick(at, 0, 0x00, open)?.word;
                Ok(self.follow(node.arc(node.tested(word)), word))
            }
            Kind::End => unreachable!("perform ends there"),
        }
    }

    fn write(&mut self, number: u8, result: u8) {
        if result != 0 {
            self.results[usize::from(number)] = result == 2;
        }
    }

    /// The stop that is reached from a node by this word.
    fn follow(&self, from: usize, word: u16) -> usize {
        let mut at = from;
        while !self.chart.stops(at) {
            let node = &self.chart.nodes[at];
            at = node.arc(node.tested(word));
        }
        at
    }
}

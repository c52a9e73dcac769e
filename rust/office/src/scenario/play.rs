//! A scenario played on an image by the proved library: the words that it comes to, and where the ticks differ from what is expected.

use fairleadow::{Library, Proved, State};

use crate::image::Image;
use crate::names::Names;
use crate::plan::Plan;
use crate::problem::{counted, Problem};
use crate::trace::fresh;
use crate::trace::swaps::{self, Swap};
use crate::trace::words::MOST_WORDS;

use super::expected::{add, place, refused, Difference, Made, Seen};
use super::resolve::too_long;
use super::{Scenario, Sign, Span, Step};

/// What a scenario is played on: an image, and the chart that it was made of, if it was.
#[derive(Clone, Copy)]
pub struct Stage<'a> {
    pub image: &'a Image,
    pub names: &'a Names,
    pub plan: Option<&'a Plan>,
}

/// A step whose ticks never showed what they were made for; a run ends there.
#[derive(Clone, Debug, PartialEq, Eq)]
pub struct Unmet {
    pub words: String,
}

/// The words and swaps that a scenario came to, with the word that was refused as the last one, if one was.
#[derive(Clone, Debug, Default)]
pub struct Played {
    pub words: Vec<u16>,
    pub swaps: Vec<Swap>,
    /// How many ticks were made.
    pub ticks: usize,
    /// How often a tick was held against what is expected of it.
    pub held: usize,
    pub differences: Vec<Difference>,
    pub unmet: Option<Unmet>,
}

/// Plays a scenario from a fresh state of so many places. A swap that is refused is told with its line.
pub fn play(scenario: &Scenario, stage: Stage, places: usize) -> Result<Played, Problem> {
    let table = stage.image.prepared()?;
    let mut player = Player { stage, table, state: fresh(places)?, played: Played::default() };
    for (at, step) in scenario.steps.iter().enumerate() {
        match player.step(step).map_err(|problem| scenario.problem(problem))? {
            Ended::Done => {}
            Ended::Refused if at + 1 < scenario.steps.len() => {
                player.left_out(&scenario.steps[at + 1..]);
                break;
            }
            Ended::Refused | Ended::Unmet => break,
        }
    }
    Ok(player.played)
}

struct Player<'a> {
    stage: Stage<'a>,
    table: Vec<u8>,
    state: State,
    played: Played,
}

/// How a step ended.
enum Ended {
    Done,
    Refused,
    Unmet,
}

impl Player<'_> {
    fn step(&mut self, step: &Step) -> Result<Ended, Problem> {
        self.swap(step)?;
        let (until, most) = match step.span {
            Span::Times(times) => (None, times),
            Span::Until { sign, most, column } => (Some((sign, column)), most),
        };
        let first = self.played.words.len();
        for made in 1..=most {
            if self.played.words.len() == MOST_WORDS {
                return Err(too_long(step.line));
            }
            let seen = self.tick(step.word);
            let met = until.is_some_and(|(sign, _)| sign.is_shown(&seen));
            let is_refused = matches!(seen, Seen::Refused { .. });
            let is_last = met || is_refused || until.is_none() && made == most;
            self.hold(step, &seen, is_last, met);
            if is_refused {
                return Ok(Ended::Refused);
            }
            if met {
                return Ok(Ended::Done);
            }
        }
        Ok(match until {
            None => Ended::Done,
            Some((sign, column)) => {
                self.unmet(step, sign, column, first);
                Ended::Unmet
            }
        })
    }

    /// Makes the swaps before a step.
    fn swap(&mut self, step: &Step) -> Result<(), Problem> {
        for swapped in &step.swaps {
            let (tick, line, column) = (self.played.words.len(), swapped.line, swapped.column);
            let swap = Swap { tick, number: swapped.number, scheme: swapped.scheme };
            let told = |problem: Problem| Problem {
                line: Some(line),
                column: Some(column),
                words: format!("line {line}, column {column}: {}", problem.words),
                ..problem
            };
            swaps::make(&[swap], tick, &self.table, &mut self.state).map_err(told)?;
            self.played.swaps.push(swap);
        }
        Ok(())
    }

    /// One tick of the library's.
    fn tick(&mut self, word: u16) -> Seen {
        let top = usize::from(self.state.depth) - 1;
        let (label, scheme) = (self.state.places[top], self.state.servers[top]);
        let node = self.stage.plan.map(|plan| plan.marking.node(label, scheme));
        let ticked = Proved.live_tick(&self.table, &mut self.state, word);
        self.played.words.push(word);
        match ticked {
            Err(refusal) => Seen::Refused { number: refusal.number(), node },
            Ok(ticked) => {
                self.played.ticks += 1;
                Seen::Made(Made { node, mask: ticked.mask, code: ticked.code })
            }
        }
    }

    /// Holds a tick against what the step expects of it; a refusal may be what the step waits for.
    fn hold(&mut self, step: &Step, seen: &Seen, is_last: bool, met: bool) {
        let expected = step.expected.iter().filter(|expected| is_last || !expected.at_last);
        let signs: Vec<Sign> = expected.map(|expected| expected.sign).collect();
        self.played.held += signs.len();
        // a refusal is told once, whatever was expected in its place
        if let Seen::Refused { number, .. } = seen {
            if !met && !signs.iter().any(|sign| sign.is_shown(seen)) {
                self.differ(step.line, seen, format!("expected a tick, and there is {}", refused(*number)));
            }
            return;
        }
        let Stage { names, plan, .. } = self.stage;
        for sign in signs.into_iter().filter(|sign| !sign.is_shown(seen)) {
            let (told, instead) = (sign.told(names, plan), sign.instead(seen, names, plan));
            self.differ(step.line, seen, format!("expected {told}, and {instead}"));
        }
    }

    fn differ(&mut self, line: usize, seen: &Seen, words: String) {
        let (tick, is_refusal) = (self.played.words.len() - 1, matches!(seen, Seen::Refused { .. }));
        let node =
            seen.node().map_or(String::new(), |node| format!(", node {}", place(node, self.stage.plan)));
        add(
            &mut self.played.differences,
            Difference { line, first: tick, last: tick, place: node, words, is_refusal },
        );
    }

    /// Tells the limit of a step that was reached.
    fn unmet(&mut self, step: &Step, sign: Sign, column: usize, first: usize) {
        let Stage { names, plan, .. } = self.stage;
        let (sign, made) = (sign.told(names, plan), counted(self.played.words.len() - first, "tick"));
        let words = format!("the limit of {made} is reached without {sign}");
        let (line, last, place) = (step.line, self.played.words.len() - 1, String::new());
        self.played.differences.push(Difference {
            line,
            first,
            last,
            place,
            words: words.clone(),
            is_refusal: false,
        });
        self.played.unmet = Some(Unmet { words: format!("line {line}, column {column}: {words}") });
    }

    /// Tells the steps that a refused tick left out.
    fn left_out(&mut self, steps: &[Step]) {
        let (line, last, count) = (steps[0].line, self.played.words.len() - 1, counted(steps.len(), "step"));
        let words = format!(
            "the run ended before this line, and {count} from here on {} left out",
            if steps.len() == 1 { "is" } else { "are" }
        );
        let place = String::new();
        self.played.differences.push(Difference { line, first: last, last, place, words, is_refusal: false });
    }
}

//! What made a tick go where it went: the library's cause of the tick, and what is told of it.

mod told;

use fairleadow::{Answer, Cause, Library, Proved, Refusal, State, Tick};

use crate::plan::Plan;
use crate::problem::Problem;
use crate::subject::Subject;
use crate::trace::swaps::{self, Swap};
use crate::trace::{fresh, Trace};

pub use told::{sort, told, Sort};

/// A tick that is asked about, with the states before and after it. A refused tick leaves the state as it was.
pub struct Asked {
    pub number: usize,
    pub word: u16,
    pub before: State,
    pub ticked: Result<Tick, Refusal>,
    pub after: State,
    pub cause: Result<Cause, Refusal>,
}

/// The tick of this number of a run from a fresh state by the words, with swaps before some of them, or the last one; a tick that is
/// refused is the last.
pub fn asked(
    subject: &Subject,
    places: usize,
    words: &[u16],
    swaps: &[Swap],
    tick: Option<usize>,
) -> Result<Asked, Problem> {
    let image = &subject.image.text;
    let table = subject.image.prepared()?;
    let start = fresh(places)?;
    let answer = run(&table, &mut start.clone(), words, swaps)?;
    let last = answer.unwrap_or_else(Refusal::ticks).min(words.len() - 1);
    let number = tick.unwrap_or(last);
    if number > last {
        let ended = match answer {
            Err(refusal) => subject.problem(refusal),
            Ok(_) => Problem::new("nothing is refused"),
        };
        if ended.is_internal() {
            return Err(ended);
        }
        return Err(Problem { words: format!("tick {number} is not reached: {}", ended.words), ..ended });
    }
    let mut before = start;
    let _ = run(&table, &mut before, &words[..number], swaps)?;
    swaps::make(swaps, number, &table, &mut before)?;
    let (word, mut after) = (words[number], before);
    let ticked = Proved.live_tick(&table, &mut after, word);
    let cause = Proved.cause(image, &before, word);
    Ok(Asked { number, word, before, ticked, after, cause })
}

/// What made each tick of a trace go where it went, or why it took no row.
pub fn reasons(plan: &Plan, trace: &Trace) -> Result<Vec<String>, Problem> {
    let ticks = trace.ticks.iter().map(|tick| (tick.swaps.as_slice(), tick.word));
    reasons_of(&Subject::of(plan)?, trace.places, ticks)
}

/// What made each tick from a fresh state go where it went, by the swaps before it and its word.
pub fn reasons_of<'a>(
    subject: &Subject,
    places: usize,
    ticks: impl Iterator<Item = (&'a [Swap], u16)>,
) -> Result<Vec<String>, Problem> {
    let (image, table) = (&subject.image.text, subject.image.prepared()?);
    let mut state = fresh(places)?;
    let reason = |(number, (swaps, word)): (usize, (&[Swap], u16))| {
        swaps::make(swaps, number, &table, &mut state)?;
        let before = state;
        let ticked = Proved.live_tick(&table, &mut state, word);
        let cause = Proved.cause(image, &before, word);
        let told = told(subject, &Asked { number, word, before, ticked, after: state, cause });
        // the tick itself is told elsewhere
        Ok(match told {
            Ok(words) => words.split_once('\n').map_or(String::new(), |(_, words)| words.to_string()),
            Err(problem) if problem.is_internal() => return Err(problem),
            Err(problem) => {
                problem.words.split_once(": ").map_or(String::new(), |(_, words)| words.to_string())
            }
        })
    };
    ticks.enumerate().map(reason).collect()
}

/// The library's live runs from one swap to the next, with room for each tick; counts the ticks of all.
fn run(table: &[u8], state: &mut State, words: &[u16], swaps: &[Swap]) -> Result<Answer, Problem> {
    let mut made = 0;
    while made < words.len() {
        swaps::make(swaps, made, table, state)?;
        let next = swaps.iter().map(|swap| swap.tick).filter(|tick| *tick > made).min();
        let part = &words[made..next.unwrap_or(words.len()).min(words.len())];
        let (mut masks, mut codes) = (vec![0; part.len()], vec![0; part.len()]);
        if let Err(refusal) = Proved.live_run(table, state, part, &mut masks, &mut codes) {
            return Ok(Err(refusal.after(made)));
        }
        made += part.len();
    }
    Ok(Ok(made))
}

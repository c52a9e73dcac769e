//! The bench: what lies on it, the words and swaps of a run, the run itself, and one that was kept to be compared with it.

use std::mem::take;

use fairleadow::PLACES;
use office::bill::prices::prices;
use office::bill::Bill;
use office::check::examined;
use office::formats::json::Json;
use office::kind::Kind;
use office::names::Names;
use office::plan::Plan;
use office::problem::{shown_name, visible, Problem};
use office::scenario::{is_scenario, play, Scenario};
use office::source;
use office::trace::swaps::{self, Swap};
use office::trace::words::Words;
use office::verdicts::Held;
use office::why::{asked, told};

use crate::compare::compared;
use crate::piece::{self, Piece, Run};
use crate::seek::{seek, visit, Event};
use crate::told;

/// The most ticks of a run, which are as many as can be priced.
const MOST_TICKS: usize = 65_536;

/// One bench; the page has one.
pub struct Bench {
    piece: Option<Box<dyn Piece>>,
    /// The chart that gives an image names, where one is given.
    names: Option<Result<Plan, Problem>>,
    places: usize,
    words: Vec<u16>,
    swaps: Vec<Swap>,
    run: Option<Result<Box<dyn Run>, Problem>>,
    kept: Option<Box<dyn Run>>,
}

impl Default for Bench {
    fn default() -> Bench {
        let (words, swaps) = (Vec::new(), Vec::new());
        Bench { piece: None, names: None, places: PLACES, words, swaps, run: None, kept: None }
    }
}

/// A refusal or a fault in words, with its place.
fn refused(problem: &Problem) -> Json {
    Json::Record(told::problem(problem))
}

/// What was asked for, or the problem.
fn answered(answer: Result<Json, Problem>) -> Json {
    answer.unwrap_or_else(|problem| refused(&problem))
}

/// Why nothing can be told of a run.
fn nothing() -> Problem {
    Problem::new("there is no accepted chart or image to run")
}

/// What `check` says of the bytes of a file.
fn checked(bytes: &[u8], names: Option<&Plan>) -> Result<String, Problem> {
    examined(source::not_too_long(bytes)?, names)?.told()
}

impl Bench {
    /// Whether these bytes are an accepted chart or image, in the words of `check`; apart from that, whether an image takes the names that
    /// are given to it. What is accepted is drawn and takes the place of what lay on the bench, and the words are run on it when its run is
    /// asked for; of anything else that stays.
    pub fn check(&mut self, bytes: &[u8]) -> Json {
        let naming = self.naming(bytes);
        let names = naming.as_ref().ok().copied().flatten();
        let read = checked(bytes, names).and_then(|words| Ok((words, piece::read(bytes, names)?)));
        let named = match &naming {
            Ok(names) => names.is_some().into(),
            Err(problem) => refused(problem),
        };
        answered(read.map(|(words, piece)| {
            let told = told::piece(&*piece);
            (self.piece, self.run) = (Some(piece), None);
            Json::Record(vec![("words", words.into()), ("piece", told), ("named", named)])
        }))
    }

    /// A chart whose names an image takes from its next check on, whose labels are the chart's; no bytes are none.
    pub fn name(&mut self, bytes: &[u8]) {
        let read = || {
            let plan = source::from_either(source::not_too_long(bytes)?).and_then(Plan::read)?;
            plan.image.clone().map(|_| plan)
        };
        self.names = (!bytes.trim_ascii().is_empty()).then(read);
    }

    /// The chart that names an image, or why it does not. What is no sound image takes no names, and why is told by its check.
    fn naming(&self, bytes: &[u8]) -> Result<Option<&Plan>, Problem> {
        let Some(names) = self.names.as_ref().filter(|_| Kind::of(bytes) == Kind::Image) else {
            return Ok(None);
        };
        let plan = names.as_ref().map_err(Problem::clone)?;
        piece::named(bytes, Some(plan)).map(|_| Some(plan))
    }

    fn piece(&self) -> Result<&dyn Piece, Problem> {
        self.piece.as_deref().ok_or_else(nothing)
    }

    /// All words run from a fresh state, with these swaps.
    fn run_with(&self, swaps: &[Swap]) -> Option<Result<Box<dyn Run>, Problem>> {
        let run = |piece: &dyn Piece| {
            let mut run = piece.begin(self.places)?;
            self.words.iter().try_for_each(|word| run.tick(*word, swaps))?;
            Ok(run)
        };
        self.piece.as_deref().map(run)
    }

    fn again(&mut self) {
        self.run = self.run_with(&self.swaps);
    }

    /// The run of what lies there.
    fn running(&self) -> Result<&dyn Run, Problem> {
        match &self.run {
            Some(Ok(run)) => Ok(&**run),
            Some(Err(problem)) => Err(problem.clone()),
            None => Err(nothing()),
        }
    }

    /// How far the run is: its ticks, the refusal that ended it, and where it stands; its swaps, as `--swap` takes them and in words, and
    /// its places.
    pub fn state(&mut self) -> Json {
        if self.run.is_none() {
            self.again();
        }
        answered(self.running().map(|run| {
            let swaps: Vec<String> = self.swaps.iter().map(Swap::to_string).collect();
            let mut state = told::state(run);
            let told = |swap: &Swap| format!("tick {}: {}", swap.tick, run.names().swapped(swap));
            let told: Vec<String> = self.swaps.iter().map(told).collect();
            state.extend([
                ("swaps", swaps.join(",").into()),
                ("swapped", told.into()),
                ("places", self.places.into()),
            ]);
            Json::Record(state)
        }))
    }

    /// A stack of so many places, on which the words are run again.
    pub fn begin(&mut self, places: usize) -> Json {
        self.places = places;
        self.again();
        self.state()
    }

    /// So many ticks by the same word, as far as they go.
    pub fn tick(&mut self, word: u16, times: usize) -> Json {
        self.extend(&vec![word; times.min(MOST_TICKS)])
    }

    /// Ticks by words as `--words` lists them, by numbers or names, or by random ones from a seed.
    pub fn feed(&mut self, text: &str, ticks: Option<usize>) -> Json {
        let forms = "words are random:SEED, count, or a list such as 0,1,0x8004 or wood*3,wood+bore,-";
        let names = self.piece.as_ref().map(|piece| piece.names().clone()).unwrap_or_default();
        match Words::written(text, &names) {
            Ok(words) => self.extend(&words.take(ticks.map(|ticks| ticks.min(MOST_TICKS)))),
            Err(message) => refused(&Problem::new(message).advice(forms)),
        }
    }

    fn extend(&mut self, words: &[u16]) -> Json {
        let room = MOST_TICKS.saturating_sub(self.words.len());
        if let Some(Ok(run)) = &mut self.run {
            for word in words.iter().take(room) {
                if run.is_stopped() {
                    break;
                }
                self.words.push(*word);
                if let Err(problem) = run.tick(*word, &self.swaps) {
                    self.run = Some(Err(problem));
                    break;
                }
            }
        }
        match words.len() > room {
            true => refused(&Problem::new(format!("a run has {MOST_TICKS} ticks at most"))),
            false => self.state(),
        }
    }

    /// Only so many ticks, and no swap after them.
    pub fn cut(&mut self, ticks: usize) -> Json {
        self.words.truncate(ticks);
        self.swaps.retain(|swap| swap.tick < ticks);
        self.again();
        self.state()
    }

    /// From here on another scheme serves a number; a refused swap is told and not kept.
    pub fn swap(&mut self, number: usize, scheme: usize) -> Json {
        let made = self.running().and_then(|run| {
            let swap = Swap { tick: run.ticks(), number, scheme };
            let swaps: Vec<Swap> = self.swaps.iter().copied().chain([swap]).collect();
            run.may_swap(&swaps).map(|_| swaps)
        });
        match made {
            Ok(swaps) => {
                self.swaps = swaps;
                self.state()
            }
            Err(problem) => refused(&problem),
        }
    }

    /// Takes back a swap, by its place among them, and runs all words again; one without which another is refused stays.
    pub fn unswap(&mut self, at: usize) -> Json {
        let others = self.swaps.iter().enumerate().filter(|(own, _)| *own != at);
        let swaps: Vec<Swap> = others.map(|(_, swap)| *swap).collect();
        match self.run_with(&swaps).unwrap_or_else(|| Err(nothing())) {
            Ok(run) => {
                (self.swaps, self.run) = (swaps, Some(Ok(run)));
                self.state()
            }
            Err(problem) => refused(&problem),
        }
    }

    /// The words of the run, as a list that `--words` takes.
    pub fn words(&self) -> String {
        self.words.iter().map(u16::to_string).collect::<Vec<String>>().join(",")
    }

    /// The words and swaps of a run that was left, and the places; what is no such list gives none.
    pub fn restore(&mut self, words: &str, swaps: &str, places: usize) -> Json {
        let names = Names::default();
        let list = Words::written(words, &names).map_or(Vec::new(), |words| words.take(None));
        let swaps = swaps::given(swaps, list.len() + 1, &names).unwrap_or_default();
        (self.words, self.swaps, self.places) = (list, swaps, places);
        self.again();
        self.state()
    }

    /// Makes a scenario the run, on as many places as it says, and tells where the ticks differ from what it expects. One that is at fault
    /// leaves the run as it is.
    pub fn play(&mut self, bytes: &[u8]) -> Json {
        let played = self.piece().and_then(|piece| {
            let scenario = Scenario::read(source::not_too_long(bytes)?, &piece.vocabulary())?;
            let places = scenario.places.unwrap_or(PLACES);
            play(&scenario, piece.stage()?, places).map(|played| (played, places))
        });
        answered(played.map(|(mut played, places)| {
            (self.words, self.swaps) = (take(&mut played.words), take(&mut played.swaps));
            self.places = places;
            self.again();
            told::held(&Held::of(played))
        }))
    }

    /// The run as a scenario, under the chart's name; with what its ticks showed as what is expected of them, where that is asked for.
    pub fn scenario(&self, name: &str, expecting: bool) -> Result<String, Problem> {
        let told = |error| Problem::new(format!("the scenario cannot be written: {error}"));
        self.running()?.scenario(&format!("a run of {}", visible(name)), expecting).map_err(told)
    }

    /// Whether the bytes of a file are a scenario, and neither a chart nor an image, whatever mark an editor put before them.
    pub fn holds_scenario(bytes: &[u8]) -> bool {
        let read = bytes.strip_prefix("\u{FEFF}".as_bytes()).unwrap_or(bytes);
        Kind::held(read).is_none() && is_scenario(read)
    }

    /// The rows of the run's table from one to before another.
    pub fn rows(&self, from: usize, to: usize) -> Json {
        answered(self.running().map(|run| {
            let rows: Vec<Json> = (from..to).map_while(|number| told::row(run, number)).collect();
            rows.into()
        }))
    }

    /// All of one tick, or of the refused one, with what made it go there.
    pub fn row(&self, number: usize) -> Json {
        answered(self.running().map(|run| told::tick(run, number)))
    }

    /// What made a tick go where it went, in the words of `why`.
    pub fn why(&self, number: usize) -> Result<String, Problem> {
        let (run, subject) = (self.running()?, self.piece()?.subject()?);
        let asked = asked(&subject, run.places(), &self.words[..run.rows()], &self.swaps, Some(number))?;
        told(&subject, &asked)
    }

    /// The next tick of a sort, after one or before it.
    pub fn seek(&self, event: Event, from: Option<usize>, forward: bool) -> Json {
        answered(self.running().map(|run| seek(run, event, from, forward).into()))
    }

    /// The next tick at a box of the drawing after a row, or else the first one there.
    pub fn visit(&self, id: &str, from: Option<usize>) -> Json {
        answered(self.running().map(|run| visit(run, id, from).into()))
    }

    /// The masks of all ticks, for the outputs over time.
    pub fn masks(&self) -> Vec<u32> {
        self.running().map_or(Vec::new(), |run| (0..run.ticks()).map(|number| run.mask(number)).collect())
    }

    /// What the run costs, in the words of `bill`.
    pub fn bill(&self, list: &[u8]) -> Result<String, Problem> {
        let (run, subject) = (self.running()?, self.piece()?.subject()?);
        let (names, words) = (subject.names(), &self.words[..run.rows()]);
        let bill = Bill::of(&subject, run.places(), prices(list, names)?, words, &self.swaps)?;
        let ended = bill.answer.err().map(|refusal| format!("\n{}", subject.problem(refusal)));
        Ok(bill.report(names) + &ended.unwrap_or_default())
    }

    /// Keeps the run as it is, to compare later ones with it.
    pub fn keep(&mut self) -> Json {
        match self.running().map(Run::kept) {
            Ok(kept) => {
                self.kept = Some(kept);
                self.compare()
            }
            Err(problem) => refused(&problem),
        }
    }

    /// How the run differs from the one that was kept; nothing where none was.
    pub fn compare(&self) -> Json {
        answered(self.running().map(|run| self.kept.as_ref().map(|kept| compared(&**kept, run)).into()))
    }

    /// What was never taken: its words, and its boxes and lines.
    pub fn never(&self) -> Json {
        answered(self.running().map(told::never))
    }

    /// The run in the words of `trace`.
    pub fn report(&self) -> Result<String, Problem> {
        self.running().map(Run::report)
    }

    /// The run as waves, in the bytes of `trace --format vcd` of a file with this name.
    pub fn vcd(&self, name: &str) -> Result<String, Problem> {
        self.running()?.waves(shown_name(name))
    }

    /// The chart as lines.
    pub fn lines(&self) -> Result<Vec<u8>, Problem> {
        self.piece()?.lines()
    }

    /// The chart in the notation, or the image as a list.
    pub fn laid_out(&self) -> Result<String, Problem> {
        self.piece()?.laid_out()
    }

    /// The image.
    pub fn image(&self) -> Result<Vec<u8>, Problem> {
        self.piece()?.image().map(|image| image.text.clone())
    }

    /// What `check` says of the bytes of a file, and nothing on the bench changes.
    pub fn words_of(&self, bytes: &[u8]) -> Result<String, Problem> {
        checked(bytes, self.naming(bytes).ok().flatten())
    }

    /// Why a file cannot be taken into the editor, in the words of `check`: it is too long, or no text.
    pub fn readable(bytes: &[u8]) -> Result<(), Problem> {
        match std::str::from_utf8(source::not_too_long(bytes)?) {
            Ok(text) if !text.contains('\0') => Ok(()),
            _ => checked(bytes, None).map(|_| ()),
        }
    }
}

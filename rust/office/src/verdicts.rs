//! Scenarios tried on a chart: which passed, where others differ, and what all of them together never took.

mod coverage;
mod csv;
mod json;
mod junit;
mod people;
mod tap;

use crate::plan::Plan;
use crate::problem::{counted, Problem};
use crate::scenario::{play, Difference, Played, Scenario, Stage, Vocabulary};
use crate::trace::{self, Coverage};

use fairleadow::PLACES;

/// How a scenario came out.
pub struct Verdict {
    /// The scenario's file.
    pub title: String,
    /// What its run showed, or why there was none.
    pub result: Result<Held, Problem>,
}

/// A run that was held against what is expected of it.
pub struct Held {
    /// How many ticks were made.
    pub ticks: usize,
    /// How often a tick was held against something expected.
    pub held: usize,
    pub differences: Vec<Difference>,
}

/// The verdicts of some scenarios on one chart.
pub struct Verdicts<'a> {
    plan: &'a Plan,
    chart: String,
    verdicts: Vec<Verdict>,
    coverage: Coverage,
}

/// How verdicts are printed.
#[derive(Clone, Copy, Debug, PartialEq, Eq)]
pub enum Format {
    People,
    Tap,
    Junit,
    Csv,
    Json,
}

/// Those that have a name.
pub const FORMATS: [(&str, Format); 4] =
    [("tap", Format::Tap), ("junit", Format::Junit), ("csv", Format::Csv), ("json", Format::Json)];

impl Verdict {
    pub fn is_passed(&self) -> bool {
        self.result.as_ref().is_ok_and(|held| held.differences.is_empty())
    }

    /// The verdict in a line.
    fn told(&self) -> String {
        match &self.result {
            Err(problem) => format!("not run: {problem}"),
            Ok(held) => held.told(),
        }
    }
}

impl Held {
    /// What a run of a scenario showed.
    pub fn of(played: Played) -> Held {
        Held { ticks: played.ticks, held: played.held, differences: played.differences }
    }

    /// In a line whether it passed, and what was made and held.
    pub fn told(&self) -> String {
        let (ticks, checks) = (counted(self.ticks, "tick"), self.checks());
        match self.differences.len() {
            0 => format!("passed, {ticks}, {checks}"),
            count => format!("failed, {ticks}, {checks}: {}", counted(count, "difference")),
        }
    }

    fn checks(&self) -> String {
        match self.held {
            0 => "nothing expected".to_string(),
            count => counted(count, "check"),
        }
    }
}

impl<'a> Verdicts<'a> {
    /// None yet, on a chart of this title.
    pub fn on(plan: &'a Plan, chart: String) -> Verdicts<'a> {
        Verdicts { plan, chart, verdicts: Vec::new(), coverage: Coverage::none(plan) }
    }

    /// Tries the bytes of a scenario's file, on so many places where that is said.
    pub fn try_one(&mut self, title: String, bytes: Result<Vec<u8>, Problem>, places: Option<usize>) {
        let result = bytes.and_then(|bytes| self.held(&bytes, places));
        self.verdicts.push(Verdict { title, result });
    }

    fn held(&mut self, bytes: &[u8], places: Option<usize>) -> Result<Held, Problem> {
        let (plan, image) = (self.plan, self.plan.image.as_ref().map_err(Problem::clone)?);
        let scenario = Scenario::read(bytes, &Vocabulary::of(plan))?;
        let places = places.or(scenario.places).unwrap_or(PLACES);
        let played = play(&scenario, Stage { image, names: &plan.names, plan: Some(plan) }, places)?;
        let trace = trace::trace(plan, places, &played.words, &played.swaps)?;
        self.coverage.join(&trace.coverage);
        Ok(Held::of(played))
    }

    /// How many did not pass.
    pub fn failed(&self) -> usize {
        self.verdicts.iter().filter(|verdict| !verdict.is_passed()).count()
    }

    /// How many could not be run.
    fn not_run(&self) -> usize {
        self.verdicts.iter().filter(|verdict| verdict.result.is_err()).count()
    }

    /// The ticks of all.
    fn ticks(&self) -> usize {
        self.verdicts.iter().filter_map(|verdict| verdict.result.as_ref().ok()).map(|held| held.ticks).sum()
    }

    /// All verdicts, and what no scenario took.
    pub fn report(&self, format: Format) -> String {
        match format {
            Format::People => people::report(self),
            Format::Tap => tap::report(self),
            Format::Junit => junit::report(self),
            Format::Csv => csv::report(self),
            Format::Json => json::report(self),
        }
    }
}

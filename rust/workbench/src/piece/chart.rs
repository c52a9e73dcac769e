//! A chart and its run, by nodes and arcs.

use std::rc::Rc;

use office::chart::Node;
use office::compose::shown;
use office::draw::{arc_id, call_id, node_id, titled};
use office::formats::record::Record;
use office::formats::vcd;
use office::image::Image;
use office::names::Names;
use office::plan::Plan;
use office::problem::Problem;
use office::scenario::written;
use office::subject::Subject;
use office::trace::swaps::Swap;
use office::trace::table::{cells, never_taken, problem, report};
use office::trace::{self, Happening, Opened, Stopped, Tick, Trace};
use office::wording::{listed, word, NONE};

use super::{Cells, Piece, Run, Served, Spot};
use crate::drawing::{chart, Sheet};

pub struct Chart(pub Rc<Plan>);

impl Piece for Chart {
    fn place(&self) -> &'static str {
        "node"
    }

    fn names(&self) -> &Names {
        &self.0.names
    }

    fn plan(&self) -> Option<&Plan> {
        Some(&self.0)
    }

    fn image(&self) -> Result<&Image, Problem> {
        self.0.image.as_ref().map_err(Problem::clone)
    }

    fn subject(&self) -> Result<Rc<Subject>, Problem> {
        Subject::of(&self.0).map(Rc::new)
    }

    fn tested(&self) -> u16 {
        self.0.tested
    }

    fn outputs(&self) -> u32 {
        self.0.nodes.iter().fold(0, |all, node| match node {
            Node::Operation { mask, .. } => all | mask,
            _ => all,
        })
    }

    fn schemes(&self) -> u8 {
        self.0.schemes()
    }

    fn sheet(&self) -> Sheet {
        chart::sheet(&self.0)
    }

    fn begin(&self, places: usize) -> Result<Box<dyn Run>, Problem> {
        let run = trace::Run::begin(&self.0, places)?;
        Ok(Box::new(ChartRun { plan: self.0.clone(), run }))
    }

    fn lines(&self) -> Result<Vec<u8>, Problem> {
        Ok(self.0.source.text.clone())
    }

    fn laid_out(&self) -> Result<String, Problem> {
        shown(&self.0.source)
    }
}

#[derive(Clone)]
struct ChartRun {
    plan: Rc<Plan>,
    run: trace::Run,
}

impl ChartRun {
    fn trace(&self) -> &Trace {
        &self.run.trace
    }

    fn made(&self, number: usize) -> Option<&Tick> {
        self.trace().ticks.get(number)
    }

    /// The tick that was refused, where it is this row.
    fn refused(&self, number: usize) -> Option<&Stopped> {
        self.trace().stopped.as_ref().filter(|_| number == self.ticks())
    }

    fn stack(&self, number: usize) -> Option<&[Opened]> {
        let refused = || self.refused(number).map(|stopped| stopped.stack.as_slice());
        self.made(number).map(|tick| tick.stack.as_slice()).or_else(refused)
    }

    fn spots(&self, stack: &[Opened]) -> Vec<Spot> {
        let spot = |opened: &Opened| Spot {
            scheme: self.plan.open_scheme(opened),
            at: self.plan.node_title(opened.node),
            id: node_id(opened.node),
        };
        stack.iter().map(spot).collect()
    }
}

impl Run for ChartRun {
    fn tick(&mut self, word: u16, swaps: &[Swap]) -> Result<(), Problem> {
        self.run.tick(&self.plan, word, swaps)
    }

    fn may_swap(&self, swaps: &[Swap]) -> Result<(), Problem> {
        self.run.may_swap(swaps).map(|_| ())
    }

    fn kept(&self) -> Box<dyn Run> {
        Box::new(self.clone())
    }

    fn names(&self) -> &Names {
        &self.plan.names
    }

    fn places(&self) -> usize {
        self.trace().places
    }

    fn ticks(&self) -> usize {
        self.trace().ticks.len()
    }

    fn is_stopped(&self) -> bool {
        self.trace().stopped.is_some()
    }

    fn refusal(&self) -> Option<Problem> {
        let trace = self.trace();
        trace.stopped.as_ref().map(|stopped| problem(&self.plan, trace, stopped))
    }

    fn happening(&self, number: usize) -> Option<Happening> {
        self.made(number).map(Tick::happening)
    }

    fn mask(&self, number: usize) -> u32 {
        self.made(number).map_or(0, |tick| tick.mask)
    }

    fn id(&self, number: usize) -> Option<String> {
        self.stack(number)?.last().map(|opened| node_id(opened.node))
    }

    fn cells(&self, number: usize) -> Option<Cells> {
        let plan = &*self.plan;
        if let Some(tick) = self.made(number) {
            return Some(cells(plan, number, tick));
        }
        // the refused tick stands where the ticks before it led, puts nothing out and leaves all else as it was
        let stopped = self.refused(number)?;
        let node = stopped.stack.last()?.node;
        let swaps = stopped.swaps.iter().map(|swap| plan.swapped(swap));
        let happens: Vec<String> = swaps.chain([format!("refused ({})", stopped.refusal.number())]).collect();
        let results = self.trace().ticks.last().map_or([false; 16], |tick| tick.results);
        Some([
            number.to_string(),
            word(stopped.word),
            listed(&plan.conditions(stopped.word)),
            plan.scheme_of(node),
            plan.node_title(node),
            happens.join("; "),
            NONE.to_string(),
            plan.open_schemes(&stopped.stack),
            listed(&plan.results(&results)),
        ])
    }

    fn open(&self, number: usize) -> Vec<Spot> {
        self.stack(number).map_or(Vec::new(), |stack| self.spots(stack))
    }

    fn now(&self) -> Vec<Spot> {
        self.spots(&self.run.open(&self.plan))
    }

    fn taken(&self, number: usize) -> Vec<String> {
        let Some(tick) = self.made(number) else { return Vec::new() };
        let call = match tick.happening() {
            Happening::Call(_) => Some(call_id(&self.plan, tick.node(), tick.server)),
            _ => None,
        };
        tick.arcs.iter().map(|arc| arc_id(*arc)).chain(call).collect()
    }

    fn served(&self, number: usize) -> Option<Served> {
        let (plan, tick) = (&*self.plan, self.made(number)?);
        let Happening::Call(called) = tick.happening() else { return None };
        let id = call_id(plan, tick.node(), tick.server);
        (called != tick.server).then(|| Served {
            from: node_id(tick.node()),
            to: node_id(plan.marking.begin(tick.server)),
            title: titled(plan, &id, "").unwrap_or_default(),
        })
    }

    fn never(&self) -> Vec<String> {
        never_taken(&self.plan, self.trace())
    }

    fn left(&self) -> Vec<String> {
        let coverage = &self.trace().coverage;
        let nodes = coverage.nodes_left().into_iter().map(node_id);
        nodes.chain(coverage.arcs_left().into_iter().map(arc_id)).collect()
    }

    fn report(&self) -> String {
        report(&self.plan, self.trace())
    }

    fn waves(&self, title: String) -> Result<String, Problem> {
        Record::of_chart(title, &self.plan, self.trace(), None).map(|record| vcd::text(&record))
    }

    fn scenario(&self, comment: &str, expecting: bool) -> Result<String, String> {
        written(&self.plan, self.trace(), comment, expecting)
    }
}

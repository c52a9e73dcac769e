//! An image and its run, by labels and rows.

use std::rc::Rc;

use office::formats::record::Record;
use office::formats::vcd;
use office::image::{Image, Open};
use office::labels::drawing::{begin_id, call_id, place_id, titled};
use office::labels::listing::listing;
use office::labels::run::{places, LabelRun, LabelStop, LabelTick, Running};
use office::labels::table::{cells, never_taken, open, problem, report};
use office::names::Names;
use office::plan::Plan;
use office::problem::Problem;
use office::scenario::written_of_image;
use office::subject::Subject;
use office::trace::swaps::Swap;
use office::trace::Happening;
use office::wording::{listed, word, NONE};

use super::{Cells, Piece, Run, Served, Spot};
use crate::drawing::{image, Sheet};

pub struct Labels(pub Rc<Subject>);

impl Piece for Labels {
    fn place(&self) -> &'static str {
        "label"
    }

    fn names(&self) -> &Names {
        self.0.names()
    }

    fn plan(&self) -> Option<&Plan> {
        self.0.plan()
    }

    fn image(&self) -> Result<&Image, Problem> {
        Ok(&self.0.image)
    }

    fn subject(&self) -> Result<Rc<Subject>, Problem> {
        Ok(self.0.clone())
    }

    fn tested(&self) -> u16 {
        self.0.image.tested()
    }

    fn outputs(&self) -> u32 {
        self.0.image.outputs()
    }

    fn schemes(&self) -> u8 {
        self.0.image.schemes()
    }

    fn sheet(&self) -> Sheet {
        image::sheet(&self.0)
    }

    fn begin(&self, places: usize) -> Result<Box<dyn Run>, Problem> {
        let run = Running::begin(&self.0.image, places)?;
        Ok(Box::new(ImageRun { subject: self.0.clone(), running: run }))
    }

    fn lines(&self) -> Result<Vec<u8>, Problem> {
        Err(Problem::new("this is an image: the lines of the chart that it was made of are not in it"))
    }

    fn laid_out(&self) -> Result<String, Problem> {
        Ok(listing(&self.0))
    }
}

#[derive(Clone)]
struct ImageRun {
    subject: Rc<Subject>,
    running: Running,
}

impl ImageRun {
    fn run(&self) -> &LabelRun {
        &self.running.run
    }

    fn made(&self, number: usize) -> Option<&LabelTick> {
        self.run().ticks.get(number)
    }

    /// The tick that was refused, where it is this row.
    fn refused(&self, number: usize) -> Option<&LabelStop> {
        self.run().stopped.as_ref().filter(|_| number == self.ticks())
    }

    fn stack(&self, number: usize) -> Option<&[Open]> {
        let refused = || self.refused(number).map(|stopped| stopped.stack.as_slice());
        self.made(number).map(|tick| tick.stack.as_slice()).or_else(refused)
    }

    fn spots(&self, stack: &[Open]) -> Vec<Spot> {
        let spot = |own: &Open| Spot {
            scheme: self.names().served((own.scheme, own.number)),
            at: format!("label {}", self.subject.title(own.label, own.scheme)),
            id: place_id(own.label, own.scheme),
        };
        stack.iter().map(spot).collect()
    }
}

impl Run for ImageRun {
    fn tick(&mut self, word: u16, swaps: &[Swap]) -> Result<(), Problem> {
        self.running.tick(&self.subject.image, word, swaps)
    }

    fn may_swap(&self, swaps: &[Swap]) -> Result<(), Problem> {
        self.running.may_swap(swaps).map(|_| ())
    }

    fn kept(&self) -> Box<dyn Run> {
        Box::new(self.clone())
    }

    fn names(&self) -> &Names {
        self.subject.names()
    }

    fn places(&self) -> usize {
        self.run().places
    }

    fn ticks(&self) -> usize {
        self.run().ticks.len()
    }

    fn is_stopped(&self) -> bool {
        self.run().stopped.is_some()
    }

    fn refusal(&self) -> Option<Problem> {
        let run = self.run();
        run.stopped.as_ref().map(|stopped| problem(&self.subject, run, stopped))
    }

    fn happening(&self, number: usize) -> Option<Happening> {
        self.made(number).map(LabelTick::happening)
    }

    fn mask(&self, number: usize) -> u32 {
        self.made(number).map_or(0, |tick| tick.mask)
    }

    fn id(&self, number: usize) -> Option<String> {
        self.stack(number)?.last().map(|own| place_id(own.label, own.scheme))
    }

    fn cells(&self, number: usize) -> Option<Cells> {
        let (subject, names) = (&*self.subject, self.names());
        if let Some(tick) = self.made(number) {
            return Some(cells(subject, number, tick));
        }
        // the refused tick stands where the ticks before it led, puts nothing out and leaves all else as it was
        let stopped = self.refused(number)?;
        let Open { label, scheme, .. } = *stopped.stack.last()?;
        let swaps = stopped.swaps.iter().map(|swap| names.swapped(swap));
        let refused = format!("refused ({})", stopped.refusal.number());
        let happens: Vec<String> = swaps.chain([refused]).collect();
        let results = self.run().ticks.last().map_or([false; 16], |tick| tick.results);
        Some([
            number.to_string(),
            word(stopped.word),
            listed(&names.conditions(stopped.word & subject.image.tested())),
            names.scheme(scheme),
            subject.title(label, scheme),
            happens.join("; "),
            NONE.to_string(),
            names.open_schemes(&open(&stopped.stack)),
            listed(&names.results(&results)),
        ])
    }

    fn open(&self, number: usize) -> Vec<Spot> {
        self.stack(number).map_or(Vec::new(), |stack| self.spots(stack))
    }

    fn now(&self) -> Vec<Spot> {
        self.spots(&self.running.open(&self.subject.image))
    }

    fn taken(&self, number: usize) -> Vec<String> {
        let Some(tick) = self.made(number) else { return Vec::new() };
        let image = &self.subject.image;
        match (tick.row, tick.happening()) {
            (Some(row), _) => image::way(&image.row(row)).to_vec(),
            (None, Happening::Home) => vec![image::entry_id(1)],
            (None, Happening::Drop) => vec![image::entry_id(image.handler())],
            (None, Happening::Call(_)) => {
                vec![call_id(&self.subject, tick.open().label, tick.server), image::entry_id(tick.server)]
            }
            (None, _) => Vec::new(),
        }
    }

    fn served(&self, number: usize) -> Option<Served> {
        let (subject, tick) = (&*self.subject, self.made(number)?);
        let Happening::Call(called) = tick.happening() else { return None };
        let Open { label, scheme, .. } = tick.open();
        let id = call_id(subject, label, tick.server);
        (called != tick.server).then(|| Served {
            from: place_id(label, scheme),
            to: begin_id(tick.server),
            title: titled(subject, &id, "").unwrap_or_default(),
        })
    }

    fn never(&self) -> Vec<String> {
        never_taken(&self.subject, self.run())
    }

    fn left(&self) -> Vec<String> {
        let (run, image) = (self.run(), &self.subject.image);
        let labels = places(image).into_iter().filter(|(label, scheme)| run.times(*label, *scheme) == 0);
        // a line is left where none of its rows was taken
        let taken: Vec<_> = image.rows().enumerate().filter(|(at, _)| run.row_taken(*at)).collect();
        let is_taken = |row: &office::image::Row| {
            taken.iter().any(|(_, own)| (own.from, own.next) == (row.from, row.next))
        };
        let lines = image.rows().filter(|row| !is_taken(row)).flat_map(|row| image::way(&row));
        labels.map(|(label, scheme)| place_id(label, scheme)).chain(lines).collect()
    }

    fn report(&self) -> String {
        report(&self.subject, self.run())
    }

    fn waves(&self, title: String) -> Result<String, Problem> {
        Ok(vcd::text(&Record::of_image(title, &self.subject, self.run(), None)))
    }

    fn scenario(&self, comment: &str, expecting: bool) -> Result<String, String> {
        written_of_image(&self.subject, self.run(), comment, expecting)
    }
}

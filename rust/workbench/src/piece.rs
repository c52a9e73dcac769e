//! What lies on the bench, an accepted chart or an accepted image, and a run of it. A chart goes by nodes, arcs and names, an image by labels,
//! rows and numbers; each is told in the office program's words for it.

mod chart;
mod image;

use std::rc::Rc;

use office::image::Image;
use office::kind::Kind;
use office::names::Names;
use office::plan::Plan;
use office::problem::Problem;
use office::scenario::{Stage, Vocabulary};
use office::source;
use office::subject::Subject;
use office::trace::swaps::Swap;
use office::trace::Happening;

use crate::drawing::Sheet;

/// A chart or an image.
pub trait Piece {
    /// What a tick stands for: a node or a label.
    fn place(&self) -> &'static str;
    fn names(&self) -> &Names;
    fn plan(&self) -> Option<&Plan>;
    /// Of a chart, the library's.
    fn image(&self) -> Result<&Image, Problem>;
    /// What `why` and `bill` are asked of.
    fn subject(&self) -> Result<Rc<Subject>, Problem>;
    /// The conditions that are tested, and the outputs that are put out at all, as masks.
    fn tested(&self) -> u16;
    fn outputs(&self) -> u32;
    fn schemes(&self) -> u8;
    fn sheet(&self) -> Sheet;
    /// A run without ticks on so many places.
    fn begin(&self, places: usize) -> Result<Box<dyn Run>, Problem>;
    /// The chart as lines.
    fn lines(&self) -> Result<Vec<u8>, Problem>;
    /// A chart in the notation, laid out; an image as a list of its labels and rows.
    fn laid_out(&self) -> Result<String, Problem>;

    /// What a scenario is read by, and what it is played on.
    fn vocabulary(&self) -> Vocabulary<'_> {
        Vocabulary { names: self.names(), plan: self.plan() }
    }

    fn stage(&self) -> Result<Stage<'_>, Problem> {
        Ok(Stage { image: self.image()?, names: self.names(), plan: self.plan() })
    }
}

/// The columns of the table of ticks.
pub type Cells = [String; 9];

/// A scheme that is open: its name, what it stands at, and that box of the drawing.
pub struct Spot {
    pub scheme: String,
    pub at: String,
    pub id: String,
}

/// A call that another scheme serves: the boxes of the drawing from which and to which it leads, and the call in words.
pub struct Served {
    pub from: String,
    pub to: String,
    pub title: String,
}

/// The ticks of a run, made one by one. Its rows are the ticks that were made and, behind them, the one that was refused.
pub trait Run {
    /// Makes the swaps of this tick and ticks once, or tells why a swap is refused.
    fn tick(&mut self, word: u16, swaps: &[Swap]) -> Result<(), Problem>;
    /// Whether the swaps of the next tick can be made, or why not.
    fn may_swap(&self, swaps: &[Swap]) -> Result<(), Problem>;
    /// The same run once more, to be compared with later ones.
    fn kept(&self) -> Box<dyn Run>;
    fn names(&self) -> &Names;
    fn places(&self) -> usize;
    fn ticks(&self) -> usize;
    fn is_stopped(&self) -> bool;
    /// The refusal that ended it.
    fn refusal(&self) -> Option<Problem>;
    /// What a tick does, its outputs, and the box of the drawing that a row stands for.
    fn happening(&self, number: usize) -> Option<Happening>;
    fn mask(&self, number: usize) -> u32;
    fn id(&self, number: usize) -> Option<String>;
    fn cells(&self, number: usize) -> Option<Cells>;
    /// What is open at a row, and what after the last one, the bottom first.
    fn open(&self, number: usize) -> Vec<Spot>;
    fn now(&self) -> Vec<Spot>;
    /// The lines of the drawing that a tick takes.
    fn taken(&self, number: usize) -> Vec<String>;
    /// The call of a tick that another scheme serves than the one called, which has no line in the drawing.
    fn served(&self, number: usize) -> Option<Served>;
    /// What no tick took, in words, and in the drawing.
    fn never(&self) -> Vec<String>;
    fn left(&self) -> Vec<String>;
    /// In the words of `trace`, as waves of a file with this title, and as a scenario with a comment on top.
    fn report(&self) -> String;
    fn waves(&self, title: String) -> Result<String, Problem>;
    fn scenario(&self, comment: &str, expecting: bool) -> Result<String, String>;

    fn rows(&self) -> usize {
        self.ticks() + usize::from(self.is_stopped())
    }
}

/// From the bytes of a chart or an image that `check` accepts; an image takes the names of a chart, where one is given.
pub fn read(bytes: &[u8], names: Option<&Plan>) -> Result<Box<dyn Piece>, Problem> {
    Ok(match Kind::of(bytes) {
        Kind::Image => Box::new(image::Labels(Rc::new(named(bytes, names)?))),
        _ => Box::new(chart::Chart(Rc::new(Plan::read(source::from_either(bytes)?)?))),
    })
}

/// An image with the names of a chart, or why its labels are not the chart's.
pub fn named(bytes: &[u8], names: Option<&Plan>) -> Result<Subject, Problem> {
    let image = Image::read(bytes.to_vec())?;
    match names {
        Some(plan) => Subject::with_names(image, plan.clone()),
        None => Ok(Subject::without_names(image)),
    }
}

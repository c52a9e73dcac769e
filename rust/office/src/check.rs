//! `check`: whether the library accepts a chart or an image, and why not.

use fairleadow::{Library, Proved, IMAGE_TEXT, LINE};

use crate::explain;
use crate::image::Image;
use crate::interlocks::{self, Decided};
use crate::kind::Kind;
use crate::other;
use crate::places;
use crate::plan::Plan;
use crate::problem::Problem;
use crate::source::{self, Source};
use crate::subject::Subject;

/// An accepted text: what it is, in words, its interlocks, and of a chart what was likely not meant.
pub struct Examined {
    pub accepted: String,
    pub interlocks: Decided,
    pub warnings: Vec<Problem>,
}

/// What an accepted text is, in words, with what in a chart was likely not meant, or why it is refused.
pub fn checked(bytes: &[u8]) -> Result<String, Problem> {
    examined(bytes, None)?.told()
}

impl Examined {
    /// In words, or the interlocks that do not hold.
    pub fn told(self) -> Result<String, Problem> {
        let Examined { accepted, interlocks, warnings } = self;
        let interlocks = interlocks.told()?.into_iter().map(|words| format!("\n  interlock: {words}"));
        let warnings = warnings.into_iter().map(|warning| format!("\n  warning: {}", warning.words));
        Ok(accepted + &interlocks.chain(warnings).collect::<String>())
    }
}

/// What an accepted text is, whether its interlocks hold, and what was likely not meant, or why it is refused. An image has the interlocks
/// of the chart that gives it names.
pub fn examined(bytes: &[u8], names: Option<&Plan>) -> Result<Examined, Problem> {
    other::refused(bytes, "a chart or an image")?;
    if Kind::of(bytes) == Kind::Image {
        let image = Image::read(bytes.to_vec())?;
        let interlocks = match names {
            Some(plan) => interlocks::decided_on(&Subject::with_names(image, plan.clone())?, plan)?,
            None => Decided::default(),
        };
        let accepted = explain::accepted(None, bytes);
        return Ok(Examined { accepted, interlocks, warnings: Vec::new() });
    }
    if let Some(kind) = Kind::held(bytes).filter(|_| names.is_some()) {
        return Err(no_image(kind));
    }
    let source = source::from_either(bytes)?;
    let image = translated(&source)?;
    let accepted = explain::accepted(Some(source.text.len() / LINE), &image);
    let places = places::told(&source)?;
    let plan = Plan::read(source)?;
    let (interlocks, warnings) = (interlocks::decided(&plan)?, explain::warnings::warnings(&plan));
    Ok(Examined { accepted: format!("{accepted}; {places}"), interlocks, warnings })
}

/// The names of a chart, or what stands in their place, are given to an image alone.
pub fn no_image(kind: Kind) -> Problem {
    Problem::new(format!("this is {}; --names goes with an image", kind.named()))
        .advice("the call without --names: a chart has its own names")
}

/// The image of a chart.
pub fn translated(source: &Source) -> Result<Vec<u8>, Problem> {
    let mut image = vec![0; IMAGE_TEXT];
    match Proved.translate(&source.text, &mut image) {
        Ok(length) => {
            image.truncate(length);
            Ok(image)
        }
        Err(refusal) => Err(source.problem(refusal)),
    }
}

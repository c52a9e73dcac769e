//! What is asked about: an image by its labels, or a chart by its nodes and names. An image may be given the names of a chart.

use fairleadow::Refusal;

use crate::explain;
use crate::image::{end_of, Image, Open};
use crate::kind::Kind;
use crate::labels::words::holds;
use crate::names::Names;
use crate::plan::Plan;
use crate::problem::{counted, Problem};
use crate::source;

/// An image, and the chart that it was made of or is named by, if there is one.
pub struct Subject {
    pub image: Image,
    plan: Option<Plan>,
    /// Whether it is the image of this chart, and not an image of its own that was given the chart's names.
    is_chart: bool,
    names: Names,
}

/// A name in parentheses, where there is one.
fn named(name: Option<&String>) -> String {
    name.map_or(String::new(), |name| format!(" ({name})"))
}

impl Subject {
    /// From the bytes of a file of any sort, or why it is refused.
    pub fn read(bytes: Vec<u8>) -> Result<Subject, Problem> {
        match Kind::of(&bytes) {
            Kind::Image => Ok(Subject::without_names(Image::read(bytes)?)),
            _ => source::from_either(&bytes).and_then(Plan::read).and_then(|plan| Subject::of(&plan)),
        }
    }

    /// An image by itself.
    pub fn without_names(image: Image) -> Subject {
        Subject { image, plan: None, is_chart: false, names: Names::default() }
    }

    /// A chart that is read, with its image.
    pub fn of(plan: &Plan) -> Result<Subject, Problem> {
        let names = plan.names.clone();
        Ok(Subject { image: plan.image.clone()?, plan: Some(plan.clone()), is_chart: true, names })
    }

    /// An image with the names of a chart, or why its labels are not the chart's.
    pub fn with_names(image: Image, plan: Plan) -> Result<Subject, Problem> {
        let own = plan.image.clone()?;
        match other_labels(&image, &own) {
            Some(what) => Err(Problem::new(format!("this is an image; its labels are not the chart's: {what}"))
                .advice("the chart that the image was made of; an image whose labels were joined or changed has its own numbers")),
            None => Ok(Subject { names: plan.names.clone(), image, plan: Some(plan), is_chart: false }),
        }
    }

    /// The shop's names; an image by itself has none.
    pub fn names(&self) -> &Names {
        &self.names
    }

    /// The chart that the image was made of or is named by, if there is one.
    pub fn plan(&self) -> Option<&Plan> {
        self.plan.as_ref()
    }

    /// Why the library refuses a run of it.
    pub fn problem(&self, refusal: Refusal) -> Problem {
        match &self.plan {
            Some(plan) if self.is_chart => plan.source.problem(refusal),
            _ => explain::refusal(&self.image.text, Kind::Image, refusal),
        }
    }

    /// The node that a label stands for in a scheme, where there is a chart.
    fn node(&self, label: u8, scheme: u8) -> Option<(&Plan, usize)> {
        self.plan.as_ref().map(|plan| (plan, plan.marking.node(label, scheme)))
    }

    /// An open label: its node, or in an image without a chart the label alone.
    pub fn place(&self, open: Open) -> String {
        let Open { label, scheme, .. } = open;
        match self.node(label, scheme) {
            Some((plan, node)) => {
                format!("node {} of {} (label {label})", plan.node_title(node), plan.scheme_of(node))
            }
            None if label < 2 => format!("label {label} (End) of scheme {scheme}"),
            None => format!("label {label} of scheme {scheme}"),
        }
    }

    /// A label in a table or a drawing: its number, and the node that it stands for.
    pub fn title(&self, label: u8, scheme: u8) -> String {
        match self.node(label, scheme) {
            Some((plan, node)) => format!("{label} {}", plan.node_title(node)),
            None if label < 2 => format!("{label} (End)"),
            None => label.to_string(),
        }
    }

    /// The name by which a label from 2 up is written: that of its node, if it is one that no other has.
    pub fn name(&self, label: u8) -> Option<String> {
        let numbered = (2..self.image.labels()).contains(&usize::from(label));
        let (plan, node) =
            self.plan.as_ref().filter(|_| numbered).map(|plan| (plan, plan.marking.node(label, 1)))?;
        Some(plan.names.node(node)).filter(|name| name != "begin" && name != "end")
    }

    /// A label as a patch writes it: by its name or its number, an End as such.
    pub fn word(&self, label: u8) -> String {
        match label {
            0 | 1 => "end".to_string(),
            _ => self.name(label).unwrap_or_else(|| label.to_string()),
        }
    }

    /// The label of a word of a patch: a number, or a name; `end` is that of the scheme.
    pub fn labelled(&self, word: &str, scheme: u8) -> Option<u8> {
        match word {
            "end" => Some(end_of(scheme)),
            _ => word.parse().ok().or_else(|| {
                (2..self.image.labels())
                    .map(|label| label as u8)
                    .find(|label| self.name(*label).as_deref() == Some(word))
            }),
        }
    }

    /// A label with its name in parentheses: `label 4 (look)`.
    pub fn named_label(&self, label: u8) -> String {
        format!("label {label}{}", named(self.name(label).as_ref()))
    }

    /// A scheme by its number, and its name.
    pub fn scheme(&self, number: u8) -> String {
        format!("scheme {number}{}", named(self.names.schemes.get(&number)))
    }

    /// A condition with its value in a word, and its name.
    pub fn condition(&self, number: u8, word: u16) -> String {
        let name = named(self.names.conditions.get(&number));
        format!("condition {number} was {}{name}", word >> number & 1)
    }

    /// The result of a scheme with its value, and its name.
    pub fn result(&self, scheme: u8, value: u8) -> String {
        let name = named(self.names.schemes.get(&scheme));
        format!("the result of scheme {scheme} was {value}{name}")
    }
}

/// How the labels of an image are not those of another's, which a chart has.
fn other_labels(image: &Image, own: &Image) -> Option<String> {
    let counts = |image: &Image| {
        let (labels, schemes) =
            (counted(image.labels(), "label"), counted(usize::from(image.schemes()), "scheme"));
        format!("{labels} in {schemes}")
    };
    if counts(image) != counts(own) {
        return Some(format!("it has {}, and the chart's image {}", counts(image), counts(own)));
    }
    let differs = |label: &u8| image.label(*label) != own.label(*label);
    let label = (0..image.labels()).map(|label| label as u8).find(differs)?;
    let said = |image: &Image| holds(&image.label(label), &Names::default());
    let (there, here) = (said(image), said(own));
    let scheme = |image: &Image| image.label(label).owner;
    Some(match there == here {
        true => format!(
            "label {label} belongs to scheme {}, and the chart's to scheme {}",
            scheme(image),
            scheme(own)
        ),
        false => format!("label {label} says '{there}', and the chart's '{here}'"),
    })
}

//! An accepted chart, ready to be traced and drawn: its nodes, the shop's names, its image and its labels.

use fairleadow::{Library, Proved, RECORD, RECORDS};

use crate::chart::{nodes, Node};
use crate::check::translated;
use crate::image::Image;
use crate::marking::{self, held, Marking};
use crate::names::Names;
use crate::problem::Problem;
use crate::source::Source;

#[derive(Clone, Debug)]
pub struct Plan {
    pub source: Source,
    pub nodes: Vec<Node>,
    pub names: Names,
    pub marking: Marking,
    /// The conditions that some node tests, as a mask.
    pub tested: u16,
    /// The library's image, or why there is none: a chart that is read can have too many rows.
    pub image: Result<Image, Problem>,
}

impl Plan {
    /// Reads a chart with the proved reader, or tells why it is refused. Its labels are those of the image.
    pub fn read(source: Source) -> Result<Plan, Problem> {
        let mut records = [0; RECORDS];
        match Proved.read_chart(&source.text, &mut records) {
            Ok(count) => {
                let nodes = nodes(&records[..RECORD * count]);
                let marking = Marking::of(&nodes);
                Plan::marked(source, nodes, marking)
            }
            Err(refusal) => Err(source.problem(refusal)),
        }
    }

    /// The plan of an accepted chart, with labels that are held to its image.
    fn marked(source: Source, nodes: Vec<Node>, marking: Marking) -> Result<Plan, Problem> {
        let image = translated(&source).map(Image::accepted);
        if let Ok(image) = &image {
            held::to_image(&nodes, &marking, image)?;
        }
        let tested = nodes.iter().fold(0, |tested, node| match node {
            Node::Condition { number, .. } => tested | 1 << number,
            _ => tested,
        });
        Ok(Plan { names: source.names.clone(), source, nodes, marking, tested, image })
    }

    pub fn schemes(&self) -> u8 {
        marking::schemes(&self.nodes)
    }

    /// The scheme that is performed when the stack is full, 0 for none.
    pub fn handler(&self) -> u8 {
        marking::handler(&self.nodes)
    }

    /// The label of a node; without an image there are none.
    pub fn label(&self, node: usize) -> Option<usize> {
        self.image.as_ref().ok().and_then(|_| self.marking.label(node))
    }

    /// How many arcs the chart has.
    pub fn arc_count(&self) -> usize {
        self.nodes.iter().map(|node| node.arcs().len()).sum()
    }
}

#[cfg(test)]
mod tests {
    use super::*;
    use crate::source::from_bytes;

    /// A chart whose labels are found otherwise than the library's image has them is told, and is no plan.
    #[test]
    fn a_plan_has_the_labels_of_its_image() {
        let chart = from_bytes(include_bytes!("../../../examples/bore.chart"));
        let plan = Plan::read(chart.clone()).expect("an accepted chart");
        let other = Plan::read(from_bytes(include_bytes!("../../../examples/paper.chart"))).expect("another");
        let told = Plan::marked(chart, plan.nodes, other.marking).expect_err("labels of another chart");
        assert!(told.words.starts_with("internal error: the labels of the nodes are not those"), "{told}");
    }
}

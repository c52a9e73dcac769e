//! The labels found here, held to the image that the library made of the same chart. Each label's fields, where each scheme begins, and
//! where each row leads: from the entries on these fix the label of every node, for a row is given for each way out of a label.

use crate::chart::Node;
use crate::image::{Image, Row};
use crate::problem::Problem;
use crate::trace::arcs;

use super::{called, schemes, Marking};

/// That each node has the label that the image has for it, or which differs.
pub fn to_image(nodes: &[Node], marking: &Marking, image: &Image) -> Result<(), Problem> {
    let (own, wanted) = (marking.labels(), image.labels());
    if own != wanted {
        return Err(differs(format!("{own} labels are found, and the image has {wanted}")));
    }
    for label in 2..=(wanted - 1) as u8 {
        if fields(&nodes[marking.node(label, 1)]) != image.fields(label) {
            return Err(differs(format!("label {label} stands for another node")));
        }
    }
    for scheme in 1..=schemes(nodes) {
        let start = arcs::entered(nodes, marking, scheme).end;
        if marking.label(start) != Some(usize::from(image.entry(scheme))) {
            return Err(differs(format!("scheme {scheme} begins with label {}", image.entry(scheme))));
        }
    }
    match image.rows().enumerate().find(|(_, row)| !leads_there(nodes, marking, row)) {
        Some((number, row)) => {
            Err(differs(format!("row {number} leads from label {} to {}", row.from, row.next)))
        }
        None => Ok(()),
    }
}

fn differs(what: String) -> Problem {
    Problem::internal(format!("the labels of the nodes are not those of the library's image: {what}"))
}

/// What the label of a node from 2 up holds, as an image has it.
fn fields(node: &Node) -> [u8; 8] {
    let (kind, result, mask) = match *node {
        Node::Operation { called, result, mask, .. } => (u8::from(called != 0), result, mask),
        Node::Function { .. } => (2, 0, 0),
        _ => (0, 0, 0),
    };
    let [a, b, c, d] = mask.to_be_bytes();
    [kind, called(node), node.scheme(), result, a, b, c, d]
}

/// Whether the arcs that a row's values take from its node end at the node of its next label.
fn leads_there(nodes: &[Node], marking: &Marking, row: &Row) -> bool {
    let from = marking.node(row.from, 1);
    let bits = match row.result {
        2 => [false, true],
        bit => [bit == 1; 2],
    };
    bits.into_iter().all(|bit| {
        let end = arcs::followed(nodes, marking, from, &[bit; 16], row.values).end;
        marking.label(end) == Some(usize::from(row.next))
    })
}

#[cfg(test)]
mod tests {
    use super::*;
    use crate::plan::Plan;
    use crate::source::from_bytes;

    fn example(name: &str) -> Plan {
        let path = format!("{}/../../examples/{name}", env!("CARGO_MANIFEST_DIR"));
        Plan::read(from_bytes(&std::fs::read(path).expect("an example"))).expect("an accepted chart")
    }

    /// A marking with two labels changed for each other, or one too few, is told.
    #[test]
    fn labels_that_are_not_those_of_the_image_are_told() {
        for name in ["bore.chart", "branches.chart", "paper.chart", "roughing.chart", "swapped.chart"] {
            let plan = example(name);
            let image = plan.image.as_ref().expect("an image");
            let held = |marking: &Marking| to_image(&plan.nodes, marking, image);
            assert_eq!(held(&plan.marking), Ok(()), "{name}");
            let labels = plan.marking.labelled.len();
            for (one, other) in (0..labels).flat_map(|one| (0..one).map(move |other| (one, other))) {
                let mut wrong = plan.marking.clone();
                wrong.labelled.swap(one, other);
                let told = held(&wrong).expect_err("two labels changed").words;
                assert!(told.starts_with("internal error: the labels of the nodes are not those"), "{told}");
            }
            let mut wrong = plan.marking.clone();
            wrong.labelled.pop();
            let told = held(&wrong).expect_err("a label too few").words;
            assert!(told.ends_with(&format!(
                "{} labels are found, and the image has {}",
                labels + 1,
                labels + 2
            )));
        }
    }
}

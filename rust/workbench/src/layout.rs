//! Where the boxes of one scheme stand: in layers from its Begin downward, each below all that lead to it. An arc that passes a layer
//! bends in it, and shares its bends with others to the same node; one that leads back up goes round on the right.

mod columns;
mod layers;

/// A node: its size, and the nodes that its arcs lead to.
pub struct Outline {
    pub width: f64,
    pub height: f64,
    pub arcs: Vec<usize>,
}

/// The middle of a box, or of an arc's bend.
#[derive(Clone, Copy, Debug, PartialEq)]
pub struct Point {
    pub x: f64,
    pub y: f64,
}

/// The way of an arc from one box to another.
pub enum Way {
    /// Down, through a bend in each layer between; a bend has its upper and its lower end.
    Down(Vec<[Point; 2]>),
    /// Round on the right, at this distance from the left.
    Back(f64),
}

/// The places of all boxes, and the ways of their arcs by box and side.
pub struct Layout {
    pub places: Vec<Point>,
    pub ways: Vec<Vec<Way>>,
    pub width: f64,
    pub height: f64,
}

/// What is left free between two boxes of a layer, beside a bend, between layers, and between ways that go round.
const BESIDE: f64 = 22.0;
const BEND: f64 = 16.0;
const BETWEEN: f64 = 34.0;
const ROUND: f64 = 13.0;

impl Layout {
    /// The layout of boxes; what cannot be reached from the first stands beside it.
    pub fn of(boxes: &[Outline]) -> Layout {
        let layers = layers::Layers::of(boxes);
        let xs = columns::columns(boxes, &layers);
        let heights: Vec<f64> = layers.order.iter().map(|layer| highest(boxes, layer)).collect();
        let tops: Vec<f64> = heights
            .iter()
            .scan(0.0, |top, height| {
                let own = *top;
                *top += height + BETWEEN;
                Some(own)
            })
            .collect();
        let middle = |spot: usize| {
            let layer = layers.layer[spot];
            Point { x: xs[spot], y: tops[layer] + heights[layer] / 2.0 }
        };
        let bend = |spot: &usize| {
            let (layer, x) = (layers.layer[*spot], xs[*spot]);
            [Point { x, y: tops[layer] }, Point { x, y: tops[layer] + heights[layer] }]
        };
        let rightmost = |first: usize, last: usize| {
            let spots = layers.order[first..=last].iter().flatten();
            spots.map(|spot| xs[*spot] + width(boxes, *spot) / 2.0).fold(0.0, f64::max)
        };
        let rounds = rounds(&layers, rightmost);
        let way = |from: usize, side: usize| match rounds.iter().find(|round| round.is(&layers, from, side)) {
            Some(round) => Way::Back(round.x),
            None => Way::Down(layers.bends[from][side].iter().map(bend).collect()),
        };
        let ways =
            (0..boxes.len()).map(|from| (0..boxes[from].arcs.len()).map(|side| way(from, side)).collect());
        let last = heights.len() - 1;
        let right = rounds.iter().map(|round| round.x + ROUND / 2.0).fold(rightmost(0, last), f64::max);
        Layout {
            places: (0..boxes.len()).map(middle).collect(),
            ways: ways.collect(),
            width: right,
            height: tops[last] + heights[last],
        }
    }
}

/// The highest box of a layer.
fn highest(boxes: &[Outline], layer: &[usize]) -> f64 {
    layer.iter().filter_map(|spot| boxes.get(*spot)).map(|own| own.height).fold(0.0, f64::max)
}

/// The width of a box; a bend has none.
fn width(boxes: &[Outline], spot: usize) -> f64 {
    boxes.get(spot).map_or(0.0, |own| own.width)
}

/// All arcs that lead back to one box: the layers that they pass, and where they go.
struct Round {
    to: usize,
    first: usize,
    last: usize,
    x: f64,
}

impl Round {
    fn is(&self, layers: &layers::Layers, from: usize, side: usize) -> bool {
        layers.back.contains(&(from, side, self.to))
    }
}

/// The ways back: the short ones inside, each to the right of all boxes that it passes and of the ways within it.
fn rounds(layers: &layers::Layers, rightmost: impl Fn(usize, usize) -> f64) -> Vec<Round> {
    let mut rounds: Vec<Round> = Vec::new();
    for (from, _, to) in &layers.back {
        let (first, last) = (layers.layer[*to], layers.layer[*from]);
        match rounds.iter_mut().find(|round| round.to == *to) {
            Some(round) => round.last = round.last.max(last),
            None => rounds.push(Round { to: *to, first, last, x: 0.0 }),
        }
    }
    rounds.sort_by_key(|round| (round.last - round.first, round.first));
    for at in 0..rounds.len() {
        let (inner, rest) = rounds.split_at_mut(at);
        let own = &mut rest[0];
        let passed = inner.iter().filter(|other| other.first <= own.last && own.first <= other.last);
        own.x = passed.map(|other| other.x).fold(rightmost(own.first, own.last), f64::max) + ROUND;
    }
    rounds
}

#[cfg(test)]
mod tests {
    use super::*;

    fn boxes(arcs: &[&[usize]]) -> Vec<Outline> {
        arcs.iter().map(|arcs| Outline { width: 60.0, height: 30.0, arcs: arcs.to_vec() }).collect()
    }

    /// Boxes of all layouts that are tried: a line, a choice, a loop, a way past others, and both.
    fn tried() -> Vec<Vec<Outline>> {
        vec![
            boxes(&[&[1], &[]]),
            boxes(&[&[1], &[2, 3], &[4], &[4], &[]]),
            boxes(&[&[1], &[2], &[1, 3], &[]]),
            boxes(&[&[1], &[2, 4], &[3], &[4], &[]]),
            boxes(&[&[1], &[2, 5], &[3, 5], &[1, 4], &[2, 5], &[]]),
            boxes(&[&[3], &[2, 3], &[1], &[], &[]]),
            boxes(&[&[1], &[2, 3, 4, 1], &[4], &[4], &[]]),
        ]
    }

    #[test]
    fn no_box_stands_on_another() {
        for boxes in tried() {
            let Layout { places, width, height, .. } = Layout::of(&boxes);
            for (at, own) in places.iter().enumerate() {
                assert!(own.x >= 30.0 && own.x + 30.0 <= width && own.y >= 15.0 && own.y + 15.0 <= height);
                for other in &places[..at] {
                    assert!((own.x - other.x).abs() >= 60.0 || (own.y - other.y).abs() >= 30.0);
                }
            }
        }
    }

    #[test]
    fn arcs_lead_down_or_round() {
        for boxes in tried() {
            let Layout { places, ways, .. } = Layout::of(&boxes);
            for (from, own) in boxes.iter().enumerate() {
                for (to, way) in own.arcs.iter().zip(&ways[from]) {
                    match way {
                        Way::Back(x) => {
                            assert!(places[*to].y <= places[from].y && *x > places[from].x + 30.0)
                        }
                        Way::Down(bends) => {
                            let ends = [[places[from]; 2], [places[*to]; 2]];
                            let way: Vec<[Point; 2]> = [&ends[..1], bends, &ends[1..]].concat();
                            assert!(way.windows(2).all(|pair| pair[0][1].y < pair[1][0].y));
                        }
                    }
                }
            }
        }
    }
}
